//! A scheme as it is given on the command line, and the lengths that follow from it.

use crate::arguments::{byte_list, usage, Arguments};
use crate::failure::Failure;
use gilunavoi::limits::{DEFAULT_COUNTS, DEFAULT_N, DEFAULT_R, DEFAULT_Z};
use gilunavoi::limits::{FORMER_DEFAULT_COUNTS, FORMER_DEFAULT_N, FORMER_DEFAULT_R, FORMER_DEFAULT_Z, MAX_MESSAGE};
use gilunavoi::raw;
use gilunavoi::Lengths;
use std::ffi::OsStr;
use std::fmt;

pub struct Scheme {
    pub n: u8,
    pub r: u8,
    pub z: u8,
    pub counts: Vec<u8>,
    /// Nobody named it.
    by_default: bool,
    /// The file that named it, if one did.
    said_by: Option<String>,
}

/// The lengths of an accepted scheme's block: m bytes in b rows, and the key bytes that they take.
pub struct Block {
    pub bytes: usize,
    pub rows: usize,
    pub keys: usize,
    /// The blocks of the longest message. No share and no prefix has more.
    pub most: usize,
    z: usize,
}

/// The scheme of the library's calls without one.
impl Default for Scheme {
    fn default() -> Scheme {
        Scheme { by_default: true, ..Scheme::named(DEFAULT_N, DEFAULT_R, DEFAULT_Z, &DEFAULT_COUNTS) }
    }
}

impl Scheme {
    fn named(n: u8, r: u8, z: u8, counts: &[u8]) -> Scheme {
        Scheme { n, r, z, counts: counts.to_vec(), by_default: false, said_by: None }
    }

    /// The default before, of which shares are stored.
    pub fn former_default() -> Scheme {
        Scheme::named(FORMER_DEFAULT_N, FORMER_DEFAULT_R, FORMER_DEFAULT_Z, &FORMER_DEFAULT_COUNTS)
    }

    /// How many parties open a message, whoever they are. The scheme is accepted.
    pub fn enough(&self) -> u8 {
        self.n - self.r
    }

    /// The scheme of as many parties in which fewer than open a message learn nothing, if this one is accepted and is not
    /// such a scheme. It has the same counts, or where its block would be too long as many of them as it can have, the last
    /// one included; of several such schemes it is the one with the larger counts.
    pub fn with_shamirs_promise(&self) -> Option<Scheme> {
        let z = self.enough() - 1;
        if self.z == z {
            return None;
        }
        let is_accepted = |counts: &Vec<u8>| raw::check(self.n, self.r, z, counts).is_ok();
        let kept = self.choices_of_counts().filter(is_accepted).max_by_key(|counts| (counts.len(), counts.clone()));
        kept.map(|counts| Scheme::named(self.n, self.r, z, &counts))
    }

    /// The counts, in all ways of leaving some of them out, but for the last one.
    fn choices_of_counts(&self) -> impl Iterator<Item = Vec<u8>> + '_ {
        let (others, last) = self.counts.split_at(self.counts.len() - 1);
        (0..1_u32 << others.len()).map(move |choice| {
            let is_kept = |&(place, _): &(usize, &u8)| choice >> place & 1 == 1;
            let kept = others.iter().enumerate().filter(is_kept).map(|(_, count)| count);
            kept.chain(last).copied().collect()
        })
    }

    /// N, R, Z and the counts, in one word or in several; the default scheme where there is none.
    pub fn from_words<'a>(words: impl IntoIterator<Item = &'a OsStr>) -> Result<Scheme, Failure> {
        let lists = words.into_iter().map(byte_list).collect::<Result<Vec<_>, Failure>>()?;
        match lists.concat()[..] {
            [] => Ok(Scheme::default()),
            [n, r, z, ref counts @ ..] => Ok(Scheme::named(n, r, z, counts)),
            _ => usage("a scheme is N, R, Z and the counts".to_string()),
        }
    }

    pub fn of(arguments: &Arguments) -> Result<Scheme, Failure> {
        Scheme::from_words(arguments.option("--scheme"))
    }

    /// The same, named by this file.
    pub fn said_by(self, name: &str) -> Scheme {
        Scheme { said_by: Some(name.to_string()), ..self }
    }

    /// For a report and a refusal: who named it, if a file did.
    fn as_said(&self) -> String {
        self.said_by.as_ref().map_or(String::new(), |name| format!(", as {name} says"))
    }

    /// As it is written after `--scheme`.
    pub fn in_a_row(&self) -> String {
        in_a_row(&[&[self.n, self.r, self.z], &self.counts[..]].concat())
    }

    /// For a report: which scheme was used.
    pub fn used(&self) -> String {
        let default = if self.by_default { "the default, " } else { "" };
        format!("{default}{}{}", self.in_a_row(), self.as_said())
    }

    /// The same for who reads shares: those from before the default was this one do not tell it.
    pub fn used_by_readers(&self) -> String {
        let hint = format!("; shares of the former default need --scheme {}", Scheme::former_default().in_a_row());
        format!("{}{}", self.used(), if self.by_default { &hint } else { "" })
    }

    /// Adds to a refusal for a length, for an end that is none, for a range past the blocks, or for shares that do not agree,
    /// that the scheme may be what is wrong.
    pub fn suspected(&self, failure: Failure) -> Failure {
        match failure {
            Failure::Refused(number @ (9 | 11 | 15 | 18), detail) => {
                let same = if self.by_default { "" } else { ": shares have to be split, and prefixes cut, in it too" };
                Failure::Refused(number, format!("{detail}\nthe scheme is {}{same}", self.used_by_readers()))
            }
            _ => failure,
        }
    }

    /// Asks the library whether the scheme is accepted.
    pub fn check(&self) -> Result<Block, Failure> {
        self.block().map_err(|number| Failure::Refused(number, format!("the scheme is {self}{}", self.as_said())))
    }

    fn block(&self) -> Result<Block, u64> {
        let (m, b) = raw::check(self.n, self.r, self.z, &self.counts)?;
        let (bytes, rows, z) = (m as usize, b as usize, self.z as usize);
        // The earlier form makes one block of so many bytes.
        let (keys, most) = (self.lengths(true, bytes)?.keys, self.lengths(false, MAX_MESSAGE)?.blocks);
        Ok(Block { bytes, rows, keys, most, z })
    }

    /// The lengths of a message of so many bytes, in the earlier form or padded, or the number of the refusal. The library
    /// says them.
    pub fn lengths(&self, unpadded: bool, length: usize) -> Result<Lengths, u64> {
        let lengths = if unpadded { raw::lengths } else { raw::lengths_padded };
        lengths(self.n, self.r, self.z, &self.counts, length)
    }

    /// The blocks of a message in the earlier form; none of one that is refused for its length.
    pub fn blocks(&self, length: usize) -> usize {
        self.lengths(true, length).map_or(0, |lengths| lengths.blocks)
    }

    /// What of such a message each party sends where d are read from, d one of the counts. The library says it of a share
    /// of zeros; what is in a share does not change it.
    pub fn sent(&self, unpadded: bool, length: usize, d: usize) -> Result<usize, u64> {
        let share = vec![0; self.lengths(unpadded, length)?.share];
        let bytes = if unpadded {
            raw::prefix(self.n, self.r, self.z, &self.counts, length, d, &share)
        } else {
            raw::prefix_padded(self.n, self.r, self.z, &self.counts, d, &share)
        };
        Ok(bytes? as usize)
    }
}

/// Numbers with commas between them.
pub fn in_a_row(numbers: &[u8]) -> String {
    numbers.iter().map(u8::to_string).collect::<Vec<_>>().join(",")
}

impl fmt::Display for Scheme {
    fn fmt(&self, f: &mut fmt::Formatter) -> fmt::Result {
        write!(f, "N {}, R {}, Z {}, ", self.n, self.r, self.z)?;
        match &self.counts[..] {
            [] => write!(f, "no counts"),
            counts => write!(f, "counts {}", in_a_row(counts)),
        }
    }
}

impl Block {
    /// The bytes of one block in a prefix when d parties are read from, d one of the counts.
    pub fn prefix_of_block(&self, d: usize) -> usize {
        self.bytes / (d - self.z)
    }
}
