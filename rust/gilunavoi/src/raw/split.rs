//! Splitting a message under keys that are lent.

use super::boundary;
use super::{answer, Answer};

/// Splits by the call of one of the two forms of message.
#[allow(clippy::too_many_arguments)]
fn split_by(
    call: boundary::Split,
    n: u8,
    r: u8,
    z: u8,
    counts: &[u8],
    message: &[u8],
    keys: &[u8],
    out: &mut [u8],
) -> Answer {
    // SAFETY: pointers of slices, with their lengths; `out` is borrowed mutably, so it overlaps none; none is kept (raw.rs).
    #[rustfmt::skip]
    let split = unsafe {
        call(
            n, r, z, counts.as_ptr(), counts.len(), message.as_ptr(), message.len(),
            keys.as_ptr(), keys.len(), out.as_mut_ptr(), out.len(),
        )
    };
    answer(split)
}

/// The same in the default scheme.
fn split_default_by(call: boundary::SplitDefault, message: &[u8], keys: &[u8], out: &mut [u8]) -> Answer {
    // SAFETY: pointers of slices, with their lengths; `out` is borrowed mutably, so it overlaps none; none is kept (raw.rs).
    answer(unsafe { call(message.as_ptr(), message.len(), keys.as_ptr(), keys.len(), out.as_mut_ptr(), out.len()) })
}

/// Splits a message of the earlier form. All shares stand in `out` one after another, that of party 1 first. The answer is
/// the length of one.
///
/// # Errors
///
/// Refusals 1 to 5, 8 and 10.
pub fn split(n: u8, r: u8, z: u8, counts: &[u8], message: &[u8], keys: &[u8], out: &mut [u8]) -> Answer {
    split_by(boundary::sharing_split, n, r, z, counts, message, keys, out)
}

/// The same in the default scheme.
///
/// # Errors
///
/// Refusals 5, 8 and 10.
pub fn split_default(message: &[u8], keys: &[u8], out: &mut [u8]) -> Answer {
    split_default_by(boundary::sharing_split_default, message, keys, out)
}

/// Splits a message that is padded, as [`split`] does one of the earlier form.
///
/// # Errors
///
/// Refusals 1 to 5, 8 and 10.
pub fn split_padded(n: u8, r: u8, z: u8, counts: &[u8], message: &[u8], keys: &[u8], out: &mut [u8]) -> Answer {
    split_by(boundary::sharing_split_padded, n, r, z, counts, message, keys, out)
}

/// The same in the default scheme.
///
/// # Errors
///
/// Refusals 5, 8 and 10.
pub fn split_padded_default(message: &[u8], keys: &[u8], out: &mut [u8]) -> Answer {
    split_default_by(boundary::sharing_split_padded_default, message, keys, out)
}
