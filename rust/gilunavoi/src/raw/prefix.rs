//! What one party sends: how many bytes of the share that it lends whole, from the first on.

use super::boundary;
use super::{answer, Answer};

/// Of a message of so many bytes in the earlier form, when `d` parties are read from.
///
/// # Errors
///
/// Refusals 1 to 6 and 9.
pub fn prefix(n: u8, r: u8, z: u8, counts: &[u8], message_length: usize, d: usize, share: &[u8]) -> Answer {
    // SAFETY: pointers of slices, with their lengths; none is kept (raw.rs).
    #[rustfmt::skip]
    let prefix = unsafe {
        boundary::sharing_prefix(
            n, r, z, counts.as_ptr(), counts.len(), message_length, d, share.as_ptr(), share.len(),
        )
    };
    answer(prefix)
}

/// The same in the default scheme.
///
/// # Errors
///
/// Refusals 5, 6 and 9.
pub fn prefix_default(message_length: usize, d: usize, share: &[u8]) -> Answer {
    // SAFETY: the pointer of a slice, with its length; it is not kept (raw.rs).
    answer(unsafe { boundary::sharing_prefix_default(message_length, d, share.as_ptr(), share.len()) })
}

/// Of a padded message, whose length nobody has to know, when `d` parties are read from.
///
/// # Errors
///
/// Refusals 1 to 4, 6 and 9.
pub fn prefix_padded(n: u8, r: u8, z: u8, counts: &[u8], d: usize, share: &[u8]) -> Answer {
    // SAFETY: pointers of slices, with their lengths; none is kept (raw.rs).
    answer(unsafe {
        boundary::sharing_prefix_padded(n, r, z, counts.as_ptr(), counts.len(), d, share.as_ptr(), share.len())
    })
}

/// The same in the default scheme.
///
/// # Errors
///
/// Refusals 6 and 9.
pub fn prefix_padded_default(d: usize, share: &[u8]) -> Answer {
    // SAFETY: the pointer of a slice, with its length; it is not kept (raw.rs).
    answer(unsafe { boundary::sharing_prefix_padded_default(d, share.as_ptr(), share.len()) })
}
