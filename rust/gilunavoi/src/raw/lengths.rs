//! The lengths that belong to a message of so many bytes.

use super::boundary::{self, SharingLengths};
use super::unless_refused;
use crate::Lengths;

fn lengths_of(answer: SharingLengths) -> Result<Lengths, u64> {
    let SharingLengths { refusal, blocks, keys, share, output, opened } = answer;
    let [blocks, keys, share, output, opened] = [blocks, keys, share, output, opened].map(|length| length as usize);
    unless_refused(refusal, Lengths { blocks, keys, share, output, opened }, Lengths::default())
}

/// By the call of one of the two forms of message.
fn lengths_by(call: boundary::LengthsOf, n: u8, r: u8, z: u8, counts: &[u8], length: usize) -> Result<Lengths, u64> {
    // SAFETY: the pointer of a slice, with its length; it is not kept (raw.rs).
    lengths_of(unsafe { call(n, r, z, counts.as_ptr(), counts.len(), length) })
}

/// The lengths that belong to a message of so many bytes in the earlier form.
///
/// # Errors
///
/// Refusals 1 to 5.
pub fn lengths(n: u8, r: u8, z: u8, counts: &[u8], message_length: usize) -> Result<Lengths, u64> {
    lengths_by(boundary::sharing_lengths, n, r, z, counts, message_length)
}

/// The same in the default scheme.
///
/// # Errors
///
/// Refusal 5.
pub fn lengths_default(message_length: usize) -> Result<Lengths, u64> {
    lengths_of(boundary::sharing_lengths_default(message_length))
}

/// The lengths that belong to a padded message of so many bytes.
///
/// # Errors
///
/// Refusals 1 to 5.
pub fn lengths_padded(n: u8, r: u8, z: u8, counts: &[u8], message_length: usize) -> Result<Lengths, u64> {
    lengths_by(boundary::sharing_lengths_padded, n, r, z, counts, message_length)
}

/// The same in the default scheme.
///
/// # Errors
///
/// Refusal 5.
pub fn lengths_padded_default(message_length: usize) -> Result<Lengths, u64> {
    lengths_of(boundary::sharing_lengths_padded_default(message_length))
}
