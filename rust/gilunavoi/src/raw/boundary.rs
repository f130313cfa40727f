//! The calls of the C boundary, declared as `include/sharing.h` has them. Those that take no pointer can be called with
//! anything, and are declared so (`safe`).

use super::WEIGHTS;

#[repr(C)]
pub struct Gf256InverseAnswer {
    pub exists: u64,
    pub inverse: u64,
}

#[repr(C)]
pub struct SharingScheme {
    pub refusal: u64,
    pub block: u64,
    pub rows: u64,
}

#[repr(C)]
pub struct SharingTriedScheme {
    pub refusal: u64,
    pub block: u64,
    pub rows: u64,
    pub tried: u64,
}

#[repr(C)]
pub struct SharingLengths {
    pub refusal: u64,
    pub blocks: u64,
    pub keys: u64,
    pub share: u64,
    pub output: u64,
    pub opened: u64,
}

#[repr(C)]
pub struct SharingAnswer {
    pub refusal: u64,
    pub value: u64,
}

#[repr(C)]
pub struct SharingPaddedAnswer {
    pub refusal: u64,
    pub used: u64,
    pub length: u64,
}

#[repr(C)]
pub struct SharingBasis {
    pub refusal: u64,
    pub weights: [u8; WEIGHTS],
}

#[repr(C)]
pub struct SharingRebuild {
    pub refusal: u64,
    pub differing: u64,
    pub party: u64,
}

#[repr(C)]
pub struct ArchiveEntry {
    pub refusal: u64,
    pub offset: u64,
    pub length: u64,
}

/// The record of a pool of keys, which the calls that split from it read and move. It is not `Clone`: it is kept once, beside
/// the bytes, and nobody sets it back.
#[repr(C)]
#[derive(Debug, PartialEq, Eq)]
pub struct KeyPool {
    /// How many bytes the pool was loaded with.
    pub length: usize,
    /// How many of them were taken, from the first on.
    pub position: usize,
}

/// The call for the lengths, with a scheme: the same in both forms of message.
pub type LengthsOf = unsafe extern "C" fn(u8, u8, u8, *const u8, usize, usize) -> SharingLengths;

/// The splitter's call, with a scheme and by default: the same in both forms of message.
#[rustfmt::skip]
pub type Split = unsafe extern "C" fn(
    u8, u8, u8, *const u8, usize, *const u8, usize, *const u8, usize, *mut u8, usize,
) -> SharingAnswer;
pub type SplitDefault = unsafe extern "C" fn(*const u8, usize, *const u8, usize, *mut u8, usize) -> SharingAnswer;

/// The same with keys from a pool.
#[rustfmt::skip]
pub type SplitFromPool = unsafe extern "C" fn(
    *mut KeyPool, u8, u8, u8, *const u8, usize, *const u8, usize, *const u8, usize, *mut u8, usize,
) -> SharingAnswer;
#[rustfmt::skip]
pub type SplitFromPoolDefault = unsafe extern "C" fn(
    *mut KeyPool, *const u8, usize, *const u8, usize, *mut u8, usize,
) -> SharingAnswer;

#[rustfmt::skip]
unsafe extern "C" {
    pub safe fn sharing_gf256_add(a: u8, b: u8) -> u8;
    pub safe fn sharing_gf256_mul(a: u8, b: u8) -> u8;
    pub safe fn sharing_gf256_mul_by_shifting(a: u8, b: u8) -> u8;
    pub safe fn sharing_gf256_inverse(a: u8) -> Gf256InverseAnswer;
    pub fn sharing_check(n: u8, r: u8, z: u8, counts: *const u8, counts_length: usize) -> SharingScheme;
    pub safe fn sharing_check_default() -> SharingScheme;
    pub fn sharing_check_tried(n: u8, r: u8, z: u8, counts: *const u8, counts_length: usize) -> SharingTriedScheme;
    pub safe fn sharing_check_tried_default() -> SharingTriedScheme;
    pub fn sharing_lengths(
        n: u8, r: u8, z: u8, counts: *const u8, counts_length: usize, message_length: usize,
    ) -> SharingLengths;
    pub safe fn sharing_lengths_default(message_length: usize) -> SharingLengths;
    pub fn sharing_lengths_padded(
        n: u8, r: u8, z: u8, counts: *const u8, counts_length: usize, message_length: usize,
    ) -> SharingLengths;
    pub safe fn sharing_lengths_padded_default(message_length: usize) -> SharingLengths;
    pub fn sharing_split(
        n: u8, r: u8, z: u8, counts: *const u8, counts_length: usize,
        message: *const u8, message_length: usize, keys: *const u8, keys_length: usize,
        out: *mut u8, out_length: usize,
    ) -> SharingAnswer;
    pub fn sharing_split_default(
        message: *const u8, message_length: usize, keys: *const u8, keys_length: usize,
        out: *mut u8, out_length: usize,
    ) -> SharingAnswer;
    pub fn sharing_prefix(
        n: u8, r: u8, z: u8, counts: *const u8, counts_length: usize,
        message_length: usize, d: usize, share: *const u8, share_length: usize,
    ) -> SharingAnswer;
    pub fn sharing_prefix_default(message_length: usize, d: usize, share: *const u8, share_length: usize) -> SharingAnswer;
    pub fn sharing_basis(
        n: u8, r: u8, z: u8, counts: *const u8, counts_length: usize, parties: *const u8, parties_length: usize,
    ) -> SharingBasis;
    pub fn sharing_basis_default(parties: *const u8, parties_length: usize) -> SharingBasis;
    pub fn sharing_reconstruct(
        n: u8, r: u8, z: u8, counts: *const u8, counts_length: usize, message_length: usize,
        parties: *const u8, parties_length: usize, prefixes: *const u8, prefixes_length: usize,
        out: *mut u8, out_length: usize,
    ) -> SharingAnswer;
    pub fn sharing_reconstruct_default(
        message_length: usize, parties: *const u8, parties_length: usize,
        prefixes: *const u8, prefixes_length: usize, out: *mut u8, out_length: usize,
    ) -> SharingAnswer;
    pub fn sharing_reconstruct_range(
        n: u8, r: u8, z: u8, counts: *const u8, counts_length: usize,
        message_length: usize, start: usize, range_length: usize,
        parties: *const u8, parties_length: usize, prefixes: *const u8, prefixes_length: usize,
        out: *mut u8, out_length: usize,
    ) -> SharingAnswer;
    pub fn sharing_reconstruct_range_default(
        message_length: usize, start: usize, range_length: usize, parties: *const u8, parties_length: usize,
        prefixes: *const u8, prefixes_length: usize, out: *mut u8, out_length: usize,
    ) -> SharingAnswer;
    pub fn sharing_split_padded(
        n: u8, r: u8, z: u8, counts: *const u8, counts_length: usize,
        message: *const u8, message_length: usize, keys: *const u8, keys_length: usize,
        out: *mut u8, out_length: usize,
    ) -> SharingAnswer;
    pub fn sharing_split_padded_default(
        message: *const u8, message_length: usize, keys: *const u8, keys_length: usize,
        out: *mut u8, out_length: usize,
    ) -> SharingAnswer;
    pub fn sharing_prefix_padded(
        n: u8, r: u8, z: u8, counts: *const u8, counts_length: usize, d: usize, share: *const u8, share_length: usize,
    ) -> SharingAnswer;
    pub fn sharing_prefix_padded_default(d: usize, share: *const u8, share_length: usize) -> SharingAnswer;
    pub fn sharing_reconstruct_padded(
        n: u8, r: u8, z: u8, counts: *const u8, counts_length: usize, parties: *const u8, parties_length: usize,
        prefixes: *const u8, prefixes_length: usize, out: *mut u8, out_length: usize,
    ) -> SharingPaddedAnswer;
    pub fn sharing_reconstruct_padded_default(
        parties: *const u8, parties_length: usize, prefixes: *const u8, prefixes_length: usize,
        out: *mut u8, out_length: usize,
    ) -> SharingPaddedAnswer;
    pub fn sharing_split_from_pool(
        pool: *mut KeyPool, n: u8, r: u8, z: u8, counts: *const u8, counts_length: usize,
        message: *const u8, message_length: usize, pool_bytes: *const u8, pool_bytes_length: usize,
        out: *mut u8, out_length: usize,
    ) -> SharingAnswer;
    pub fn sharing_split_from_pool_default(
        pool: *mut KeyPool, message: *const u8, message_length: usize,
        pool_bytes: *const u8, pool_bytes_length: usize, out: *mut u8, out_length: usize,
    ) -> SharingAnswer;
    pub fn sharing_split_padded_from_pool(
        pool: *mut KeyPool, n: u8, r: u8, z: u8, counts: *const u8, counts_length: usize,
        message: *const u8, message_length: usize, pool_bytes: *const u8, pool_bytes_length: usize,
        out: *mut u8, out_length: usize,
    ) -> SharingAnswer;
    pub fn sharing_split_padded_from_pool_default(
        pool: *mut KeyPool, message: *const u8, message_length: usize,
        pool_bytes: *const u8, pool_bytes_length: usize, out: *mut u8, out_length: usize,
    ) -> SharingAnswer;
    pub fn sharing_rebuild(
        n: u8, r: u8, z: u8, counts: *const u8, counts_length: usize, parties: *const u8, parties_length: usize,
        shares: *const u8, shares_length: usize, party: u8, held: *const u8, held_length: usize,
        out: *mut u8, out_length: usize,
    ) -> SharingRebuild;
    pub fn sharing_rebuild_default(
        parties: *const u8, parties_length: usize, shares: *const u8, shares_length: usize,
        party: u8, held: *const u8, held_length: usize, out: *mut u8, out_length: usize,
    ) -> SharingRebuild;
    pub fn sharing_archive_write(
        contents: *const u8, contents_length: usize, lengths: *const usize, lengths_length: usize,
        out: *mut u8, out_length: usize,
    ) -> SharingAnswer;
    pub fn sharing_archive_count(file: *const u8, file_length: usize) -> SharingAnswer;
    pub fn sharing_archive_entry(file: *const u8, file_length: usize, number: usize) -> ArchiveEntry;
}
