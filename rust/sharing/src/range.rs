//! A range of a message's bytes, as `reconstruct` and `scheme` are told it, and what the library makes of it.

use crate::arguments::{bounds, usage, Arguments};
use crate::failure::Failure;
use crate::report::counted;
use crate::scheme::{Block, Scheme};
use crate::target::Target;
use gilunavoi::limits::MAX_MESSAGE;
use gilunavoi::raw;
use std::fmt;

/// The bytes from `start` up to `end`, which is not one of them. They are counted from 0.
#[derive(Clone, Copy)]
pub struct Range {
    start: usize,
    end: usize,
}

impl Range {
    /// The range that is asked for, if one is.
    pub fn of(arguments: &Arguments) -> Result<Option<Range>, Failure> {
        match (arguments.option("--range"), arguments.number_if_given("--first")?) {
            (Some(_), Some(_)) => usage("--range and --first cannot stand together".to_string()),
            (Some(word), None) => match bounds(word) {
                Ok((start, end)) => Ok(Some(Range { start, end })),
                Err(reason) => usage(format!("--range: {reason}")),
            },
            (None, first) => Ok(first.map(|end| Range { start: 0, end })),
        }
    }

    fn length(&self) -> usize {
        self.end - self.start
    }

    /// Has it a byte from this one on?
    pub fn reaches(&self, byte: usize) -> bool {
        self.length() > 0 && self.end > byte
    }

    /// Does it lie in the first so many bytes?
    pub fn is_within(&self, bytes: usize) -> bool {
        self.end <= bytes
    }

    /// The bytes used and those of the range, of a message of this length in the earlier form; or the number of the refusal.
    pub fn open(&self, scheme: &Scheme, length: usize, parties: &[u8], prefixes: &[u8]) -> Result<(u64, Vec<u8>), u64> {
        let Scheme { n, r, z, ref counts, .. } = *scheme;
        // A longer range is refused before its room is looked at, so that no number asks for too much.
        let mut bytes = vec![0; self.length().min(MAX_MESSAGE)];
        let (start, many) = (self.start, self.length());
        let used = raw::reconstruct_range(n, r, z, counts, length, start, many, parties, prefixes, &mut bytes)?;
        Ok((used, bytes))
    }

    /// How many of the rows that each of d parties sends the range needs, d one of the counts. The library says it of the
    /// shortest message that has the range; neither a longer one nor what the parties send would change it.
    pub fn rows(&self, scheme: &Scheme, block: &Block, d: usize) -> Result<usize, Failure> {
        // A message without a byte has no blocks of which rows could be counted.
        let length = self.end.max(1);
        let blocks = scheme.blocks(length.min(MAX_MESSAGE));
        let parties: Vec<u8> = (1..=scheme.n).take(d).collect();
        let prefixes = vec![0; d * block.prefix_of_block(d) * blocks];
        match self.open(scheme, length, &parties, &prefixes) {
            Ok((used, _)) => Ok(used as usize / (d * blocks)),
            Err(number) => {
                let end = counted(self.end, "byte");
                Err(Failure::Refused(number, format!("a message that has the range {self} has {end} at least")))
            }
        }
    }

    /// For a report: which bytes of what are where.
    pub fn is_in(&self, target: &Target, of: &str) -> String {
        let there = target.there();
        match self.length() {
            0 => format!("The range {self} is empty, and so is {target}"),
            1 => format!("Byte {} of {of} is {there}", self.start),
            many => {
                let (last, bytes) = (self.end - 1, counted(many, "byte"));
                format!("Bytes {} to {last} of {of}, {bytes}, are {there}", self.start)
            }
        }
    }
}

/// Which rows are used first where d parties are read from, so many of them: those of the last group that is sent, then
/// those of the group before it, and so on.
pub fn rows_in_order(scheme: &Scheme, block: &Block, d: usize, mut rows: usize) -> String {
    let ends = scheme.counts.iter().map(|&count| block.prefix_of_block(count as usize));
    let mut groups: Vec<usize> =
        [0].into_iter().chain(ends).take_while(|&end| end <= block.prefix_of_block(d)).collect();
    let mut words = Vec::new();
    while let (Some(end), Some(&start)) = (groups.pop(), groups.last()) {
        match rows.min(end - start) {
            0 => {}
            1 => words.push(start.to_string()),
            many => words.push(format!("{start}-{}", start + many - 1)),
        }
        rows = rows.saturating_sub(end - start);
    }
    if words.is_empty() {
        "none".to_string()
    } else {
        words.join(" ")
    }
}

/// As it is written after `--range`.
impl fmt::Display for Range {
    fn fmt(&self, f: &mut fmt::Formatter) -> fmt::Result {
        write!(f, "{}..{}", self.start, self.end)
    }
}
