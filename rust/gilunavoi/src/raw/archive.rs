//! Archives, which keep many shares in one file: the calls as the C boundary has them.

use super::boundary;
use super::{answer, unless_refused, Answer};

/// The length of the archive of so many entries, of so many bytes together: the room that [`write()`] needs. Numbers for which
/// there is no archive give some length all the same.
pub fn file_length(entries: usize, contents: usize) -> usize {
    entries.saturating_mul(4).saturating_add(2).saturating_add(contents)
}

/// Writes the entries, which stand in `contents` end to end, and answers the length of the file.
///
/// # Errors
///
/// Refusals 12, 13 and 10, in this order.
pub fn write(contents: &[u8], lengths: &[usize], out: &mut [u8]) -> Answer {
    // SAFETY: pointers of slices, with their lengths; `out` is borrowed mutably, so it overlaps none; none is kept (raw.rs).
    #[rustfmt::skip]
    let written = unsafe {
        boundary::sharing_archive_write(
            contents.as_ptr(), contents.len(), lengths.as_ptr(), lengths.len(), out.as_mut_ptr(), out.len(),
        )
    };
    answer(written)
}

/// How many entries there are.
///
/// # Errors
///
/// Refusals 12 and 13.
pub fn count(file: &[u8]) -> Answer {
    // SAFETY: the pointer of a slice, with its length; it is not kept (raw.rs).
    answer(unsafe { boundary::sharing_archive_count(file.as_ptr(), file.len()) })
}

/// The offset and the length of an entry, or the number of the refusal.
///
/// # Errors
///
/// Refusals 12, 13 and 14.
pub fn place(file: &[u8], number: usize) -> Result<(u64, u64), u64> {
    // SAFETY: the pointer of a slice, with its length; it is not kept (raw.rs).
    let answer = unsafe { boundary::sharing_archive_entry(file.as_ptr(), file.len(), number) };
    unless_refused(answer.refusal, (answer.offset, answer.length), (0, 0))
}

/// An entry: the part of the file itself.
///
/// # Errors
///
/// Refusals 12, 13 and 14.
pub fn entry(file: &[u8], number: usize) -> Result<&[u8], u64> {
    place(file, number).map(|(offset, length)| &file[offset as usize..][..length as usize])
}
