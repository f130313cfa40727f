//! A pool of keys in a folder, as the program `sharing` keeps it, and what it has to hold.

use crate::folder::{text, Folder};
use gilunavoi::limits::{DEFAULT_N, DEFAULT_Z};
use gilunavoi::raw;
use std::fs;

/// A message of 33 bytes, and another one. In the default scheme both take `NEEDED` key bytes.
pub const MESSAGE: &[u8] = b"Call the client back before noon.";
pub const OTHER: &[u8] = b"The car is waiting at the corner.";
pub const NEEDED: usize = 72;

/// The shares of a padded message in the default scheme, party after party.
pub fn expected_shares(message: &[u8], keys: &[u8]) -> Vec<Vec<u8>> {
    let share = keys.len() / DEFAULT_Z as usize;
    let mut shares = vec![0; DEFAULT_N as usize * share];
    assert_eq!(raw::split_padded_default(message, keys, &mut shares), Ok(share as u64));
    shares.chunks(share).map(<[u8]>::to_vec).collect()
}

impl Folder {
    pub fn put(&self, name: &str, bytes: &[u8]) {
        fs::write(self.0.join(name), bytes).expect("a written file");
    }

    /// The folder "pool" with these two files, in place of what it had.
    pub fn put_pool(&self, keys: &[u8], position: usize) {
        let _ = fs::remove_dir_all(self.0.join("pool"));
        fs::create_dir(self.0.join("pool")).expect("a new folder");
        self.put("pool/keys", keys);
        self.put_record(keys.len(), position);
    }

    pub fn put_record(&self, length: usize, position: usize) {
        self.put("pool/record", format!("length {length}\nposition {position}\n").as_bytes());
    }

    /// The files in a folder.
    pub fn names_in(&self, name: &str) -> Vec<String> {
        let entries = fs::read_dir(self.0.join(name)).expect("a folder");
        let mut names: Vec<_> = entries.flatten().map(|entry| entry.file_name().into_string().expect("text")).collect();
        names.sort();
        names
    }

    /// How many key bytes are used. The record must be whole.
    pub fn position(&self) -> usize {
        let record = text(&self.bytes("pool/record"));
        let length = self.bytes("pool/keys").len();
        let position =
            record.strip_prefix(&format!("length {length}\nposition ")).and_then(|rest| rest.strip_suffix('\n'));
        position.and_then(|position| position.parse().ok()).unwrap_or_else(|| panic!("the record is {record:?}"))
    }

    /// The pool was loaded with these keys, and those before the record's position are overwritten, and no others.
    pub fn is_overwritten(&self, keys: &[u8]) {
        let position = self.position();
        assert_eq!(self.bytes("pool/keys"), [&vec![0; position], &keys[position..]].concat(), "up to {position}");
    }

    /// The shares of a padded message, split in the default scheme, are those that it has under these keys.
    pub fn holds_shares(&self, shares: &str, message: &[u8], keys: &[u8]) {
        for (share, party) in expected_shares(message, keys).iter().zip(1..) {
            assert_eq!(self.bytes(&format!("{shares}/share-{party}")), *share, "{shares}, party {party}");
        }
    }
}
