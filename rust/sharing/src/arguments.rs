//! The words of the command line: options, which have a value each, after `=` or as the next word, flags, which have none,
//! and the words that are left.

use crate::failure::Failure;
use crate::report::counted;
use std::ffi::{OsStr, OsString};
use std::os::unix::ffi::OsStrExt;
use std::path::{Path, PathBuf};

/// The options that have no value.
const FLAGS: [&str; 2] = ["--unpadded", "--checked"];

/// The options whose value is a file to read.
const FILES: [&str; 2] = ["--held", "--about"];

pub struct Arguments {
    options: Vec<(&'static str, OsString)>,
    pub words: Vec<OsString>,
}

pub fn usage<T>(text: String) -> Result<T, Failure> {
    Err(Failure::Usage(text))
}

/// The two sides of NAME=VALUE.
fn sides(word: &OsStr) -> Option<(&OsStr, &OsStr)> {
    let mut sides = word.as_bytes().splitn(2, |&character| character == b'=').map(OsStr::from_bytes);
    Some((sides.next()?, sides.next()?))
}

/// Do these words ask for help, before `--`? A word that is the value of an option, as a label may be, does not ask for it.
pub fn ask_for_help(given: &[OsString], names: &[&str]) -> bool {
    let mut given = given.iter();
    while let Some(word) = given.next() {
        if is_help(word) {
            return true;
        }
        if word == "--" {
            return false;
        }
        if names.iter().any(|name| word == name) && !FLAGS.iter().any(|name| word == name) {
            given.next();
        }
    }
    false
}

pub fn is_help(word: &OsStr) -> bool {
    word == "--help" || word == "-h"
}

impl Arguments {
    /// Sorts the words into options of the given names and others. After `--` all are others.
    pub fn new(given: &[OsString], names: &[&'static str]) -> Result<Arguments, Failure> {
        let mut arguments = Arguments { options: Vec::new(), words: Vec::new() };
        let mut given = given.iter();
        while let Some(word) = given.next() {
            if word == "--" {
                arguments.words.extend(given.by_ref().cloned());
            } else if word.as_bytes().starts_with(b"--") {
                let (option, value) = sides(word).map_or((word.as_os_str(), None), |(name, value)| (name, Some(value)));
                let Some(name) = names.iter().find(|name| option == **name) else {
                    return usage(format!("there is no option {option:?} here"));
                };
                let value = match (FLAGS.contains(name), value) {
                    (false, value) => value.or_else(|| given.next().map(OsString::as_os_str)),
                    (true, None) => Some(OsStr::new("")),
                    (true, Some(value)) => return usage(format!("{name} has no value, and {value:?} was given")),
                };
                arguments.add_option(name, value)?;
            } else {
                arguments.words.push(word.clone());
            }
        }
        Ok(arguments)
    }

    fn add_option(&mut self, name: &'static str, value: Option<&OsStr>) -> Result<(), Failure> {
        if self.option(name).is_some() {
            return usage(format!("{name} stands twice"));
        }
        match value {
            Some(value) => self.options.push((name, value.to_os_string())),
            None => return usage(format!("{name} needs a value after it")),
        }
        Ok(())
    }

    pub fn option(&self, name: &str) -> Option<&OsStr> {
        self.options.iter().find(|(other, _)| *other == name).map(|(_, value)| value.as_os_str())
    }

    /// The files that options name, all of which are read.
    pub fn file_options(&self) -> impl Iterator<Item = &Path> {
        FILES.iter().filter_map(|name| self.option(name)).map(Path::new)
    }

    pub fn flag(&self, name: &str) -> bool {
        self.option(name).is_some()
    }

    /// The number that an option has, if it is given.
    pub fn number_if_given(&self, name: &str) -> Result<Option<usize>, Failure> {
        let given = self.option(name).map(|value| number(value, usize::MAX));
        given.transpose().or_else(|reason| usage(format!("{name}: {reason}")))
    }

    /// The number that an option must have.
    pub fn number(&self, name: &str) -> Result<usize, Failure> {
        self.number_if_given(name)?.map_or_else(|| usage(format!("{name} is missing")), Ok)
    }

    /// The party that an option must name.
    pub fn party(&self, name: &str) -> Result<u8, Failure> {
        let word = self.option(name).map_or_else(|| usage(format!("{name} is missing")), Ok)?;
        let party = number(word, u8::MAX as usize).map(|number| number as u8);
        party.or_else(|reason| usage(format!("{name}: {reason}")))
    }
}

/// The words, if they are as many as the names.
pub fn paths<const COUNT: usize>(words: &[OsString], names: [&str; COUNT]) -> Result<[PathBuf; COUNT], Failure> {
    let paths: Vec<PathBuf> = words.iter().map(PathBuf::from).collect();
    let needed = if COUNT == 1 { "is" } else { "are" };
    let given = if paths.len() == 1 { "was" } else { "were" };
    let words = counted(paths.len(), "word");
    paths.try_into().or_else(|_| usage(format!("needed {needed} {}, and {words} {given} given", names.join(", "))))
}

fn is_digits(word: &OsStr) -> bool {
    !word.is_empty() && word.as_bytes().iter().all(u8::is_ascii_digit)
}

/// A number up to the greatest, or why the word is none.
pub fn number(word: &OsStr, greatest: usize) -> Result<usize, String> {
    if !is_digits(word) {
        return Err(format!("needed is a number, not {word:?}"));
    }
    let number = word.to_string_lossy().parse().ok().filter(|&number| number <= greatest);
    number.ok_or_else(|| format!("{word:?} is too large: numbers end at {greatest} here"))
}

fn byte(word: &OsStr) -> Result<u8, Failure> {
    number(word, u8::MAX as usize).map(|number| number as u8).or_else(usage)
}

/// Numbers with commas or spaces between them.
pub fn byte_list(word: &OsStr) -> Result<Vec<u8>, Failure> {
    word.as_bytes().split(|character| b", ".contains(character)).map(|part| byte(OsStr::from_bytes(part))).collect()
}

/// START..END, or why the word is none.
pub fn bounds(word: &OsStr) -> Result<(usize, usize), String> {
    let sides = word.to_str().and_then(|text| text.split_once(".."));
    let Some((start, end)) = sides.filter(|(start, end)| is_digits(start.as_ref()) && is_digits(end.as_ref())) else {
        return Err(format!("needed is START..END, as in 0..80, not {word:?}"));
    };
    match (number(start.as_ref(), usize::MAX)?, number(end.as_ref(), usize::MAX)?) {
        (start, end) if start > end => Err(format!("{word:?} starts after its end")),
        bounds => Ok(bounds),
    }
}

/// PARTY=FILE.
pub fn party_and_file(word: &OsStr) -> Result<(u8, PathBuf), Failure> {
    match sides(word) {
        Some((party, file)) => Ok((byte(party)?, PathBuf::from(file))),
        None => usage(format!("needed is PARTY=FILE, not {word:?}")),
    }
}

/// A file to write, where PARTY=FILE would be one of the words after it.
pub fn file_before_parties(word: &OsStr) -> Result<&Path, Failure> {
    match sides(word) {
        Some((party, _)) if is_digits(party) => usage(format!(
            "OUT is missing: {word:?} looks like PARTY=FILE; a file of that name may be given with ./ before it"
        )),
        _ => Ok(word.as_ref()),
    }
}
