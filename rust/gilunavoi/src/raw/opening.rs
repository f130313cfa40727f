//! Opening a message, or a range of it, from the prefixes of some parties, and the basis by which that is done.

use super::boundary::{self, SharingBasis, SharingPaddedAnswer};
use super::{answer, unless_refused, Answer, WEIGHTS};

/// The weights, row after row of [`ROW_OF_WEIGHTS`](super::ROW_OF_WEIGHTS), or the number of the refusal.
pub type Basis = Result<[u8; WEIGHTS], u64>;

fn basis_answer(answer: SharingBasis) -> Basis {
    unless_refused(answer.refusal, answer.weights, [0; WEIGHTS])
}

/// What the opener of padded messages answers: the number of prefix bytes that it used and the length of the message,
/// or the number of the refusal.
pub type PaddedAnswer = Result<(u64, u64), u64>;

fn padded_answer(answer: SharingPaddedAnswer) -> PaddedAnswer {
    unless_refused(answer.refusal, (answer.used, answer.length), (0, 0))
}

/// The Lagrange basis of these parties, which rise. Row i has the coefficients of the polynomial that is 1 at the i-th party
/// and 0 at the others, and zeros after them.
///
/// # Errors
///
/// Refusals 1 to 4, 6 and 7.
pub fn basis(n: u8, r: u8, z: u8, counts: &[u8], parties: &[u8]) -> Basis {
    // SAFETY: pointers of slices, with their lengths; none is kept (raw.rs).
    basis_answer(unsafe {
        boundary::sharing_basis(n, r, z, counts.as_ptr(), counts.len(), parties.as_ptr(), parties.len())
    })
}

/// The same in the default scheme.
///
/// # Errors
///
/// Refusals 6 and 7.
pub fn basis_default(parties: &[u8]) -> Basis {
    // SAFETY: the pointer of a slice, with its length; it is not kept (raw.rs).
    basis_answer(unsafe { boundary::sharing_basis_default(parties.as_ptr(), parties.len()) })
}

/// Opens a message of so many bytes in the earlier form. The parties rise, and their prefixes stand one after another in the
/// same order. The answer is the number of prefix bytes used.
///
/// # Errors
///
/// Refusals 1 to 7, 9 and 10.
#[allow(clippy::too_many_arguments)]
pub fn reconstruct(
    n: u8,
    r: u8,
    z: u8,
    counts: &[u8],
    message_length: usize,
    parties: &[u8],
    prefixes: &[u8],
    out: &mut [u8],
) -> Answer {
    // SAFETY: pointers of slices, with their lengths; `out` is borrowed mutably, so it overlaps none; none is kept (raw.rs).
    #[rustfmt::skip]
    let opened = unsafe {
        boundary::sharing_reconstruct(
            n, r, z, counts.as_ptr(), counts.len(), message_length, parties.as_ptr(), parties.len(),
            prefixes.as_ptr(), prefixes.len(), out.as_mut_ptr(), out.len(),
        )
    };
    answer(opened)
}

/// The same in the default scheme.
///
/// # Errors
///
/// Refusals 5 to 7, 9 and 10.
pub fn reconstruct_default(message_length: usize, parties: &[u8], prefixes: &[u8], out: &mut [u8]) -> Answer {
    // SAFETY: pointers of slices, with their lengths; `out` is borrowed mutably, so it overlaps none; none is kept (raw.rs).
    #[rustfmt::skip]
    let opened = unsafe {
        boundary::sharing_reconstruct_default(
            message_length, parties.as_ptr(), parties.len(),
            prefixes.as_ptr(), prefixes.len(), out.as_mut_ptr(), out.len(),
        )
    };
    answer(opened)
}

/// Opens a range of a message of so many bytes in the earlier form: the `range_length` bytes from `start` on. The answer is
/// the number of prefix bytes in the rows that were taken; the other rows may hold anything.
///
/// # Errors
///
/// Refusals 1 to 7, 15, 9 and 10, in this order.
#[allow(clippy::too_many_arguments)]
pub fn reconstruct_range(
    n: u8,
    r: u8,
    z: u8,
    counts: &[u8],
    message_length: usize,
    start: usize,
    range_length: usize,
    parties: &[u8],
    prefixes: &[u8],
    out: &mut [u8],
) -> Answer {
    // SAFETY: pointers of slices, with their lengths; `out` is borrowed mutably, so it overlaps none; none is kept (raw.rs).
    #[rustfmt::skip]
    let opened = unsafe {
        boundary::sharing_reconstruct_range(
            n, r, z, counts.as_ptr(), counts.len(), message_length, start, range_length, parties.as_ptr(), parties.len(),
            prefixes.as_ptr(), prefixes.len(), out.as_mut_ptr(), out.len(),
        )
    };
    answer(opened)
}

/// The same in the default scheme.
///
/// # Errors
///
/// Refusals 5 to 7, 15, 9 and 10, in this order.
pub fn reconstruct_range_default(
    message_length: usize,
    start: usize,
    range_length: usize,
    parties: &[u8],
    prefixes: &[u8],
    out: &mut [u8],
) -> Answer {
    // SAFETY: pointers of slices, with their lengths; `out` is borrowed mutably, so it overlaps none; none is kept (raw.rs).
    #[rustfmt::skip]
    let opened = unsafe {
        boundary::sharing_reconstruct_range_default(
            message_length, start, range_length, parties.as_ptr(), parties.len(),
            prefixes.as_ptr(), prefixes.len(), out.as_mut_ptr(), out.len(),
        )
    };
    answer(opened)
}

/// Opens a padded message: writes whole blocks into `out`, the message, whose length is answered, and its padding.
///
/// # Errors
///
/// Refusals 1 to 4, 6, 7, 9, 10 and 11, in this order.
pub fn reconstruct_padded(
    n: u8,
    r: u8,
    z: u8,
    counts: &[u8],
    parties: &[u8],
    prefixes: &[u8],
    out: &mut [u8],
) -> PaddedAnswer {
    // SAFETY: pointers of slices, with their lengths; `out` is borrowed mutably, so it overlaps none; none is kept (raw.rs).
    #[rustfmt::skip]
    let opened = unsafe {
        boundary::sharing_reconstruct_padded(
            n, r, z, counts.as_ptr(), counts.len(), parties.as_ptr(), parties.len(),
            prefixes.as_ptr(), prefixes.len(), out.as_mut_ptr(), out.len(),
        )
    };
    padded_answer(opened)
}

/// The same in the default scheme.
///
/// # Errors
///
/// Refusals 6, 7, 9, 10 and 11, in this order.
pub fn reconstruct_padded_default(parties: &[u8], prefixes: &[u8], out: &mut [u8]) -> PaddedAnswer {
    // SAFETY: pointers of slices, with their lengths; `out` is borrowed mutably, so it overlaps none; none is kept (raw.rs).
    #[rustfmt::skip]
    let opened = unsafe {
        boundary::sharing_reconstruct_padded_default(
            parties.as_ptr(), parties.len(), prefixes.as_ptr(), prefixes.len(), out.as_mut_ptr(), out.len(),
        )
    };
    padded_answer(opened)
}
