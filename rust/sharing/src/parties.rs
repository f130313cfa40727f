//! Files of several parties, given as PARTY=FILE.

use crate::arguments::{party_and_file, Arguments};
use crate::failure::{Done, Failure};
use crate::files::{read, Input};
use crate::mix_ups;
use crate::standard::check_once;
use std::ffi::OsString;
use std::path::PathBuf;

/// The files as they are given, before any of them is read: the party, and its file.
pub struct Given(Vec<(u8, PathBuf)>);

impl Given {
    /// `held` is the party whose held copy is given too, if one is.
    pub fn new(arguments: &Arguments, words: &[OsString], held: Option<u8>) -> Result<Given, Failure> {
        let mut files = words.iter().map(|word| party_and_file(word)).collect::<Result<Vec<_>, Failure>>()?;
        check_once(arguments.file_options().chain(files.iter().map(|(_, path)| path.as_path())))?;
        let shares = files.len();
        files.extend(held.zip(arguments.option("--held").map(PathBuf::from)));
        mix_ups::check(&files)?;
        files.truncate(shares);
        Ok(Given(files))
    }

    /// The parties in the order that the library wants, rising, and their files in the same order.
    pub fn read(self) -> Result<(Vec<u8>, Vec<Input>), Failure> {
        let read_one = |(party, path)| Ok((party, read(path)?));
        let mut files = self.0.into_iter().map(read_one).collect::<Result<Vec<(u8, Input)>, Failure>>()?;
        files.sort_by_key(|&(party, _)| party);
        Ok(files.into_iter().unzip())
    }
}

/// The files, one after another.
pub fn joined(files: &[Input]) -> Vec<u8> {
    files.iter().flat_map(|file| file.bytes.iter().copied()).collect()
}

/// The library sees the files joined: one too long and one too short by as much would pass there.
pub fn check_equally_long(files: &[Input], what: &str) -> Done {
    match files.windows(2).find(|pair| pair[0].bytes.len() != pair[1].bytes.len()) {
        None => Ok(()),
        Some(pair) => {
            let detail = format!("the {what} of one message are equally long, but {} and {}", pair[0], pair[1]);
            Err(Failure::Refused(9, detail))
        }
    }
}
