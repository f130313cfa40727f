//! Mix-ups of files, and of files and parties, that show before a byte is read. A share under another party's number opens
//! to other bytes, and mostly nothing else notices it.

use crate::arguments::usage;
use crate::failure::Done;
use crate::report::note;
use crate::standard::{is_standard, named};
use std::fs;
use std::os::unix::fs::MetadataExt;
use std::path::{Path, PathBuf};

/// Refuses one file for two parties, each of which has a share of its own, and points to names that say another party. A
/// copy of a file is another file: that two parties hold the same bytes is possible, if unlikely.
///
/// It is the command line that is wrong, whatever is in the files, so it is refused as a command line is.
pub fn check(files: &[(u8, PathBuf)]) -> Done {
    let identities: Vec<Identity> = files.iter().map(|(_, path)| identity(path)).collect();
    for (place, (party, path)) in files.iter().enumerate() {
        let is_same = |other: &usize| {
            files[*other].0 != *party && (files[*other].1 == *path || are_one(identities[*other], identities[place]))
        };
        if let Some(other) = (0..place).find(is_same) {
            return usage(given_twice(&files[other], &files[place]));
        }
    }
    files.iter().for_each(|(party, path)| note_name(*party, path));
    Ok(())
}

/// The device and the number of a file.
type Identity = Option<(u64, u64)>;

/// Those of the file that a path leads to, through links too. A pipe or a device that is read twice is no two shares
/// either. What is not there is left to whoever reads it.
fn identity(path: &Path) -> Identity {
    let path = if is_standard(path) { Path::new("/dev/stdin") } else { path };
    fs::metadata(path).ok().map(|metadata| (metadata.dev(), metadata.ino()))
}

fn are_one(file: Identity, other: Identity) -> bool {
    file.is_some() && file == other
}

/// Refuses a message that is also the file of its keys: keys that are no others than the message do not hide it.
pub fn check_keys(message: &Path, keys: &Path) -> Done {
    let both = if message == keys {
        format!("{} is both the message and the file of its keys", named(message))
    } else if are_one(identity(message), identity(keys)) {
        format!("the message {} and the file of its keys {} are one file", named(message), named(keys))
    } else {
        return Ok(());
    };
    usage(format!("{both}: keys are other bytes, drawn at random"))
}

fn given_twice((party, path): &(u8, PathBuf), (again, other): &(u8, PathBuf)) -> String {
    if path == other {
        return format!("{} is given for party {party} and for party {again}", named(path));
    }
    let [path, other] = [path, other].map(|path| named(path));
    format!("{path} is given for party {party} and {other} for party {again}, and they are one file")
}

/// Says so where a file is named as the share of another party. It may be named wrongly, so that is all.
pub fn note_name(party: u8, path: &Path) {
    if let Some(other) = party_in_name(path).filter(|other| *other != party as u64) {
        note(&format!("{path:?} is given for party {party}, and its name says party {other}"));
    }
}

/// The K of a file that is named share-K, as split names it, or share-K and a dot, as an older copy may be.
fn party_in_name(path: &Path) -> Option<u64> {
    let name = path.file_name()?.to_str()?;
    let number = name.strip_prefix("share-")?.split('.').next()?;
    number.bytes().all(|digit| digit.is_ascii_digit()).then(|| number.parse().ok())?
}
