//! Splitting with keys from a pool. [`Pool`](crate::Pool) keeps the bytes and the record together, as they have to be.

use super::boundary::{self, KeyPool};
use super::{answer, Answer};

/// Splits by the call of one of the two forms of message, with the next keys of the pool.
#[allow(clippy::too_many_arguments)]
fn split_by(
    call: boundary::SplitFromPool,
    pool: &mut KeyPool,
    n: u8,
    r: u8,
    z: u8,
    counts: &[u8],
    message: &[u8],
    pool_bytes: &[u8],
    out: &mut [u8],
) -> Answer {
    // SAFETY: pointers of slices, with their lengths; `pool` and `out` are borrowed mutably, so they overlap nothing; none
    // is kept (raw.rs).
    #[rustfmt::skip]
    let split = unsafe {
        call(
            pool, n, r, z, counts.as_ptr(), counts.len(), message.as_ptr(), message.len(),
            pool_bytes.as_ptr(), pool_bytes.len(), out.as_mut_ptr(), out.len(),
        )
    };
    answer(split)
}

/// The same in the default scheme.
fn split_default_by(
    call: boundary::SplitFromPoolDefault,
    pool: &mut KeyPool,
    message: &[u8],
    pool_bytes: &[u8],
    out: &mut [u8],
) -> Answer {
    // SAFETY: pointers of slices, with their lengths; `pool` and `out` are borrowed mutably, so they overlap nothing; none
    // is kept (raw.rs).
    answer(unsafe {
        call(pool, message.as_ptr(), message.len(), pool_bytes.as_ptr(), pool_bytes.len(), out.as_mut_ptr(), out.len())
    })
}

/// Splits a message of the earlier form, as [`split`](super::split) does, with the next keys of a pool: those from the
/// record's position on, which it moves. A refused call leaves the record as it was.
///
/// The caller lends all bytes of the pool each time, and the record as the call before left it: nobody else writes or copies
/// it, and no byte is used for anything else. [`Pool`](crate::Pool) sees to that.
///
/// # Errors
///
/// Refusals 1 to 5, 16 and 10, in this order.
#[allow(clippy::too_many_arguments)]
pub fn split_from_pool(
    pool: &mut KeyPool,
    n: u8,
    r: u8,
    z: u8,
    counts: &[u8],
    message: &[u8],
    pool_bytes: &[u8],
    out: &mut [u8],
) -> Answer {
    split_by(boundary::sharing_split_from_pool, pool, n, r, z, counts, message, pool_bytes, out)
}

/// The same in the default scheme.
///
/// # Errors
///
/// Refusals 5, 16 and 10, in this order.
pub fn split_from_pool_default(pool: &mut KeyPool, message: &[u8], pool_bytes: &[u8], out: &mut [u8]) -> Answer {
    split_default_by(boundary::sharing_split_from_pool_default, pool, message, pool_bytes, out)
}

/// Splits a message that is padded, as [`split_from_pool`] does one of the earlier form.
///
/// # Errors
///
/// Refusals 1 to 5, 16 and 10, in this order.
#[allow(clippy::too_many_arguments)]
pub fn split_padded_from_pool(
    pool: &mut KeyPool,
    n: u8,
    r: u8,
    z: u8,
    counts: &[u8],
    message: &[u8],
    pool_bytes: &[u8],
    out: &mut [u8],
) -> Answer {
    split_by(boundary::sharing_split_padded_from_pool, pool, n, r, z, counts, message, pool_bytes, out)
}

/// The same in the default scheme.
///
/// # Errors
///
/// Refusals 5, 16 and 10, in this order.
pub fn split_padded_from_pool_default(pool: &mut KeyPool, message: &[u8], pool_bytes: &[u8], out: &mut [u8]) -> Answer {
    split_default_by(boundary::sharing_split_padded_from_pool_default, pool, message, pool_bytes, out)
}
