//! Archives, which keep many shares in one file. Entries are numbered from 0, in the order in which they were given, and
//! have no names. A list of entries that fits has exactly one archive, and every file that is accepted is the archive of
//! exactly one list.
//!
//! ```
//! use gilunavoi::archive::{self, Archive};
//! use gilunavoi::Refusal;
//!
//! let file = archive::write(&[b"a share", b"another one"])?;
//! let archive = Archive::open(&file)?;
//! assert_eq!(archive.count(), 2);
//! assert_eq!(archive.entry(1)?, b"another one");
//! assert_eq!(archive.entry(2), Err(Refusal::NoSuchEntry));
//! # Ok::<(), Refusal>(())
//! ```

use crate::limits::{MAX_ENTRIES, MAX_OFFSET_OR_LENGTH};
use crate::raw;
use crate::refusal::length;
use crate::Refusal;

/// The archive of these entries. They have at least one byte each, and offsets and lengths have to fit two bytes.
///
/// # Errors
///
/// [`ArchiveCount`](Refusal::ArchiveCount) if there are too many, [`ArchiveEntries`](Refusal::ArchiveEntries) if they make
/// no archive.
pub fn write(entries: &[&[u8]]) -> Result<Vec<u8>, Refusal> {
    // One more than there may be is refused as all of them would be.
    let entries = &entries[..entries.len().min(MAX_ENTRIES + 1)];
    let lengths: Vec<usize> = entries.iter().map(|entry| entry.len()).collect();
    // Too many bytes are not joined, since the memory may not be there: their lengths alone are refused, with no bytes.
    let contents = if may_fit(&lengths) { entries.concat() } else { Vec::new() };
    let mut file = vec![0; raw::archive::file_length(lengths.len(), contents.len())];
    length(raw::archive::write(&contents, &lengths, &mut file))?;
    Ok(file)
}

/// Whether entries of these lengths are not more than the longest archive has, whose last one starts at the greatest offset
/// and has the greatest length. Which of them do fit says the library.
fn may_fit(lengths: &[usize]) -> bool {
    let bytes = lengths.iter().fold(0_usize, |sum, &length| sum.saturating_add(length));
    lengths.len() <= MAX_ENTRIES && bytes <= 2 * MAX_OFFSET_OR_LENGTH
}

/// A file that the library accepted as an archive.
#[derive(Clone, Copy, Debug, PartialEq, Eq)]
pub struct Archive<'a> {
    file: &'a [u8],
    count: usize,
}

impl<'a> Archive<'a> {
    /// Checks the whole file: its count, every pair of offset and length, and its end.
    ///
    /// # Errors
    ///
    /// [`ArchiveCount`](Refusal::ArchiveCount) and [`ArchiveEntries`](Refusal::ArchiveEntries).
    pub fn open(file: &'a [u8]) -> Result<Archive<'a>, Refusal> {
        Ok(Archive { file, count: length(raw::archive::count(file))? })
    }

    /// How many entries there are.
    pub fn count(&self) -> usize {
        self.count
    }

    /// The entry of this number, counted from 0: the part of the file itself.
    ///
    /// # Errors
    ///
    /// [`NoSuchEntry`](Refusal::NoSuchEntry).
    pub fn entry(&self, number: usize) -> Result<&'a [u8], Refusal> {
        raw::archive::entry(self.file, number).map_err(Refusal::given)
    }

    /// All entries in their order. Each is looked up by itself, and every lookup goes over all pairs of the file.
    pub fn entries(self) -> impl Iterator<Item = &'a [u8]> {
        (0..self.count).map_while(move |number| self.entry(number).ok())
    }
}
