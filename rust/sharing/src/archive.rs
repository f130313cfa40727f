//! The commands on archives. The library is asked what is an archive and what is not; here are the files and the words.

use crate::arguments::{number, paths, usage, Arguments};
use crate::failure::{Done, Failure};
use crate::files::{read, Input};
use crate::report::{counted, note, say};
use crate::standard::check_once;
use crate::target::Target;
use gilunavoi::limits::{MAX_ENTRIES, MAX_OFFSET_OR_LENGTH};
use gilunavoi::raw::archive;
use std::ffi::OsString;
use std::path::{Path, PathBuf};

pub fn run(arguments: &Arguments) -> Done {
    let Some((action, words)) = arguments.words.split_first() else {
        return usage("after archive one of write, list and entry is missing".to_string());
    };
    match action.to_str() {
        Some("write") => write(words),
        Some("list") => list(words),
        Some("entry") => entry(words),
        _ => usage(format!("archive has no command {action:?}: there are write, list and entry")),
    }
}

/// The shares of an archive to be: end to end, and their lengths.
struct Entries {
    contents: Vec<u8>,
    lengths: Vec<usize>,
}

impl Entries {
    /// Reads the shares one after another, and stops at the first with which they make no archive.
    fn read(words: &[OsString]) -> Result<Entries, Failure> {
        // That there are too many is said before anything of them, and follows from their number alone.
        if archive::write(&[], &vec![0; words.len()], &mut []) == Err(12) {
            return Err(Failure::Refused(12, format!("{} were given", counted(words.len(), "share"))));
        }
        let mut entries = Entries { contents: Vec::new(), lengths: Vec::new() };
        for word in words {
            entries.add(&read(PathBuf::from(word))?)?;
        }
        Ok(entries)
    }

    fn add(&mut self, share: &Input) -> Done {
        let before = counted(self.lengths.len(), "share");
        let offset = archive::file_length(self.lengths.len() + 1, self.contents.len());
        self.contents.extend(&share.bytes);
        self.lengths.push(share.bytes.len());
        // There is no room for the file yet, so that 10 is the answer where nothing else is wrong.
        match archive::write(&self.contents, &self.lengths, &mut []) {
            Err(number) if number != 10 => Err(Failure::Refused(
                number,
                match share.bytes.len() {
                    1..=MAX_OFFSET_OR_LENGTH => {
                        format!("{share} and, even as the last one, would start at {offset}; there is room for {before} before it")
                    }
                    _ => share.to_string(),
                },
            )),
            _ => Ok(()),
        }
    }
}

fn write(words: &[OsString]) -> Done {
    let Some((out, shares)) = words.split_first() else {
        return usage("needed is FILE, and then the shares".to_string());
    };
    let target = Target::new(out.as_ref())?;
    check_once(shares.iter().map(Path::new))?;
    let Entries { contents, lengths } = Entries::read(shares)?;
    let count = counted(lengths.len(), "entry");
    let mut file = vec![0; archive::file_length(lengths.len(), contents.len())];
    archive::write(&contents, &lengths, &mut file).map_err(|number| Failure::Refused(number, count.clone()))?;
    let mut told = format!("The archive, {count} in {}, is {}.\n", counted(file.len(), "byte"), target.there());
    if !lengths.is_empty() {
        told += "Entries are numbered from 0, in the order in which they were given; their names are not kept.\n";
    }
    target.put(&file, &told)
}

/// How many entries a file has, if it is an archive.
fn count(file: &Input) -> Result<usize, Failure> {
    let count = archive::count(&file.bytes).map(|count| count as usize);
    count.map_err(|number| Failure::Refused(number, damage(file)))
}

fn list(words: &[OsString]) -> Done {
    let [file] = paths(words, ["FILE"])?;
    let file = read(file)?;
    let count = count(&file)?;
    if count == 0 {
        note(&format!("{file}, and no entries"));
    }
    let mut text = String::new();
    for number in 0..count {
        let place = archive::place(&file.bytes, number);
        let (offset, length) = place.map_err(|refusal| Failure::Refused(refusal, damage(&file)))?;
        text += &format!("entry {number:4}  length {length:5}  offset {offset:5}\n");
    }
    say(&text)
}

fn entry(words: &[OsString]) -> Done {
    let [file, word, out] = paths(words, ["FILE", "NUMBER", "OUT"])?;
    let number = number(word.as_os_str(), usize::MAX).or_else(|reason| usage(format!("NUMBER: {reason}")))?;
    let target = Target::new(&out)?;
    let file = read(file)?;
    let count = count(&file)?;
    let entry = archive::entry(&file.bytes, number).map_err(|refusal| {
        let entries = counted(count, "entry");
        Failure::Refused(refusal, format!("number {number} is asked for, and {file} and {entries}, numbered from 0"))
    })?;
    target.put(entry, &format!("Entry {number}, {}, is {}.\n", counted(entry.len(), "byte"), target.there()))
}

/// What is wrong with a file that the library has not taken for an archive. It only finds words for that: nothing is
/// decided here.
fn damage(file: &Input) -> String {
    let Some((count, rest)) = file.bytes.split_first_chunk() else {
        return format!("the count alone has 2 bytes, and {file}");
    };
    let count = u16::from_le_bytes(*count) as usize;
    if count > MAX_ENTRIES {
        return format!("it starts with the count {count}, and {file}");
    }
    let mut end = archive::file_length(count, 0);
    let Some(pairs) = rest.get(..end - 2) else {
        return format!("the count and the pairs of {} have {end} bytes, and {file}", counted(count, "entry"));
    };
    for (entry, pair) in pairs.chunks(4).enumerate() {
        let [offset, length] = [0, 2].map(|place| u16::from_le_bytes([pair[place], pair[place + 1]]) as usize);
        if offset != end {
            return format!("entry {entry} has the offset {offset}, and has to start at {end}");
        }
        if length == 0 {
            return format!("entry {entry} has no bytes");
        }
        end += length;
    }
    format!("by its count and its pairs it has {}, and {file}", counted(end, "byte"))
}
