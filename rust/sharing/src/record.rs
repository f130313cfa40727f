//! The record of a pool as it stands in its file: how many key bytes were loaded, and how many of them, from the first on,
//! are used.

use crate::failure::Failure;
use crate::files::{check_regular, read};
use crate::pool::GIVE_UP;
use gilunavoi::raw::KeyPool;
use std::path::PathBuf;

pub fn text(record: &KeyPool) -> String {
    format!("length {}\nposition {}\n", record.length, record.position)
}

/// Only what `text` writes is a record. A file that was torn or changed is better refused than guessed at: a position that
/// is too small would use key bytes twice.
fn parse(bytes: &[u8]) -> Option<KeyPool> {
    let written = std::str::from_utf8(bytes).ok()?;
    let (length, position) = written.strip_prefix("length ")?.strip_suffix('\n')?.split_once("\nposition ")?;
    let record = KeyPool { length: length.parse().ok()?, position: position.parse().ok()? };
    (text(&record) == written).then_some(record)
}

pub fn read_record(path: PathBuf) -> Result<KeyPool, Failure> {
    check_regular(&path)?;
    let file = read(path)?;
    parse(&file.bytes).ok_or_else(|| {
        Failure::File(format!(
            "{:?} cannot be understood: a record is two lines, length and position, with a number each\n{GIVE_UP}",
            file.path
        ))
    })
}
