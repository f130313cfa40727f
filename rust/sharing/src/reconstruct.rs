//! The command `reconstruct`: opens a message, or a range of it, from what the parties sent.

use crate::arguments::{file_before_parties, usage, Arguments};
use crate::digest;
use crate::failure::{Done, Failure};
use crate::files::Input;
use crate::form::Form;
use crate::parties::{check_equally_long, joined, Given};
use crate::range::{rows_in_order, Range};
use crate::report::counted;
use crate::scheme::{Block, Scheme};
use crate::target::Target;
use crate::told::Told;
use gilunavoi::limits::MAX_MESSAGE;
use gilunavoi::raw;
use std::ffi::OsString;

pub fn run(arguments: &Arguments) -> Done {
    let Some((out, words)) = arguments.words.split_first() else {
        return usage("needed are OUT and PARTY=FILE, as often as there are parties".to_string());
    };
    let target = Target::new(file_before_parties(out)?)?;
    let opening = Opening::new(arguments, words)?;
    let answer = opening.open();
    // The library sees the prefixes joined: one too long and one too short by as much would pass there. A range of a padded
    // message it refuses, 15, by the number of blocks that all of them together seem to have.
    if matches!((&answer, opening.told.form), (Ok(_) | Err(9 | 11), _) | (Err(15), Form::Padded)) {
        opening.check_each()?;
    }
    let opened = opening.checked_off(answer.map_err(|number| opening.refused(number))?)?;
    target.put(&opened.bytes, &opening.report(&opened, &target))
}

/// What was opened: the prefix bytes used, the message or the range of it, and whether it is known where the message ends.
struct Opened {
    used: u64,
    bytes: Vec<u8>,
    end_known: bool,
}

/// What the parties sent, and what is to be made of it.
struct Opening {
    told: Told,
    block: Block,
    /// None where the whole message is wanted.
    range: Option<Range>,
    /// In the order that the library wants: rising.
    parties: Vec<u8>,
    /// What each of them sent.
    prefixes: Vec<Input>,
}

impl Opening {
    fn new(arguments: &Arguments, words: &[OsString]) -> Result<Opening, Failure> {
        let range = Range::of(arguments)?;
        if arguments.flag("--checked") && range.is_some() {
            return usage("--checked is for a whole message: it cannot stand with --range or --first".to_string());
        }
        let given = Given::new(arguments, words, None)?;
        let told = Told::of(arguments)?;
        let block = told.scheme.check()?;
        let (parties, prefixes) = given.read()?;
        Ok(Opening { told, block, range, parties, prefixes })
    }

    /// The bytes of all prefixes together.
    fn sent(&self) -> usize {
        self.prefixes.iter().map(|prefix| prefix.bytes.len()).sum()
    }

    /// The blocks of which so many bytes are sent. Where the number of parties is no count, it is refused for that before
    /// blocks are looked at.
    fn blocks(&self) -> usize {
        let d = self.parties.len();
        let is_count = self.told.scheme.counts.iter().any(|&count| count as usize == d);
        if is_count {
            self.sent() / (d * self.block.prefix_of_block(d))
        } else {
            0
        }
    }

    /// The number of the refusal, or what is opened.
    fn open(&self) -> Result<Opened, u64> {
        let Scheme { n, r, z, ref counts, .. } = self.told.scheme;
        let (used, bytes) = match (self.range, self.told.form) {
            (Some(range), Form::Padded) => return self.padded_range(range),
            (Some(range), Form::Told(length)) => {
                let opened = range.open(&self.told.scheme, length, &self.parties, &joined(&self.prefixes))?;
                // The check is no part of the message.
                if !range.is_within(self.told.end(length)) {
                    return Err(15);
                }
                opened
            }
            (None, Form::Padded) => self.padded_message()?,
            (None, Form::Told(length)) => {
                // A longer message is refused before its room is looked at, so that no number asks for too much.
                let mut message = vec![0; length.min(MAX_MESSAGE)];
                let prefixes = joined(&self.prefixes);
                let used = raw::reconstruct(n, r, z, counts, length, &self.parties, &prefixes, &mut message)?;
                (used, message)
            }
        };
        Ok(Opened { used, bytes, end_known: true })
    }

    /// The bytes used, and the message without its padding.
    fn padded_message(&self) -> Result<(u64, Vec<u8>), u64> {
        let Scheme { n, r, z, ref counts, .. } = self.told.scheme;
        let mut message = vec![0; self.blocks() * self.block.bytes];
        let (used, length) =
            raw::reconstruct_padded(n, r, z, counts, &self.parties, &joined(&self.prefixes), &mut message)?;
        message.truncate(length as usize);
        Ok((used, message))
    }

    /// The bytes of the blocks that a message may have. A block after them is padding alone.
    fn bytes_in_blocks(&self) -> usize {
        MAX_MESSAGE.min(self.blocks() * self.block.bytes)
    }

    /// The library takes the earlier form for a range, of which whole blocks, padding and all, are a message too.
    fn padded_range(&self, range: Range) -> Result<Opened, u64> {
        let (blocks, length) = (self.blocks(), self.bytes_in_blocks());
        let kept = self.told.scheme.blocks(length);
        let mut prefixes = joined(&self.prefixes);
        if kept < blocks {
            // A row has a byte of each block.
            prefixes = prefixes.chunks(blocks).flat_map(|row| row.iter().take(kept).copied()).collect();
        }
        let (used, bytes) = range.open(&self.told.scheme, length, &self.parties, &prefixes)?;
        // Where all rows are used, the whole message is there, and its end can be looked for.
        let end_known = used > 0 && used as usize == prefixes.len();
        if end_known && !range.is_within(self.told.end(self.padded_message()?.1.len())) {
            return Err(15);
        }
        Ok(Opened { used, bytes, end_known })
    }

    /// Takes the check off a message that has one, if it fits.
    fn checked_off(&self, opened: Opened) -> Result<Opened, Failure> {
        if !self.told.checked || self.range.is_some() {
            return Ok(opened);
        }
        match digest::without_check(opened.bytes)? {
            Some(bytes) => Ok(Opened { bytes, ..opened }),
            None => Err(self.told.does_not_fit()),
        }
    }

    /// Refuses the first prefix whose length is none that so many parties send, or is not the others'.
    fn check_each(&self) -> Done {
        let d = self.parties.len();
        let of_a_block = self.block.prefix_of_block(d);
        for prefix in &self.prefixes {
            if !self.told.fits(&self.block, of_a_block, prefix.bytes.len()) {
                let what = format!("a prefix for {d} parties");
                return Err(self.told.wrong_length(&self.block, of_a_block, &what, prefix));
            }
        }
        check_equally_long(&self.prefixes, "prefixes").map_err(|failure| self.told.scheme.suspected(failure))
    }

    /// The refusal that the library gave, with what was given.
    fn refused(&self, number: u64) -> Failure {
        let parties = &self.parties;
        let detail = match (number, self.told.form, self.range) {
            (5, Form::Told(length), _) => self.told.length(length),
            (11, ..) => {
                let (d, hint) = (parties.len(), self.told.hint());
                format!("the parties are {parties:?}\nevery prefix must have been cut for {d} readers, and {hint}")
            }
            // The scheme has no part in it.
            (15, Form::Told(length), Some(range)) => {
                return Failure::Refused(15, format!("the range is {range}, and {}", self.told.length(length)));
            }
            (15, Form::Padded, Some(range)) => format!("the range is {range}, and {}", self.has(range)),
            _ => format!("the parties are {parties:?}, and the scheme is {}", self.told.scheme),
        };
        self.told.scheme.suspected(Failure::Refused(number, detail))
    }

    /// What a range goes past: the message, where all of it was opened, or the blocks.
    fn has(&self, range: Range) -> String {
        match self.padded_message() {
            Ok((_, message)) if range.is_within(self.bytes_in_blocks()) => {
                format!("the message has {}", counted(self.told.end(message.len()), "byte"))
            }
            _ => format!("the blocks have room for {} of a message", counted(self.bytes_in_blocks(), "byte")),
        }
    }

    /// What is said of the bytes that were opened.
    fn report(&self, opened: &Opened, target: &Target) -> String {
        let (d, used, scheme) = (self.parties.len(), opened.used, self.told.scheme.used_by_readers());
        let (told, caution) = match self.range {
            None => {
                let (bytes, there) = (counted(opened.bytes.len(), "byte"), target.there());
                let told = format!("The message, {bytes}, is {there}; {used} bytes were fetched from {d} parties.\n");
                (told + &self.told.origin("It"), if self.told.checked { CHECKED } else { self.told.form.caution() })
            }
            Some(range) => self.report_on_range(range, opened, target),
        };
        format!("{told}The scheme is {scheme}.\n{caution}\n")
    }

    fn report_on_range(&self, range: Range, opened: &Opened, target: &Target) -> (String, &'static str) {
        let (d, used, sent, rows) = (self.parties.len(), opened.used, self.sent(), self.rows_used(range));
        // What was split ends in the last block, and its check, if it has one, before that.
        let end = self.told.end(self.blocks().saturating_sub(1) * self.block.bytes);
        let may_be_over = !opened.end_known && range.reaches(end);
        let is_in = range.is_in(target, if may_be_over { "the blocks" } else { "the message" });
        let mut told = format!("{is_in}; {used} bytes were used of {sent} in the prefixes of {d} parties, {rows}.\n");
        if may_be_over {
            let follows = if self.told.checked { "its check and padding" } else { "padding" };
            told += &format!("From byte {end} on the message may be over, and {follows} follow: ");
            told += "not all rows were used.\n";
        }
        told += &self.told.origin("The message");
        if self.told.checked {
            told += "The check inside the message was not looked at: that takes the whole of it.\n";
        }
        (told, if opened.end_known { self.told.form.caution() } else { NOT_CHECKED })
    }

    /// How many rows are used for a range that was opened, and which.
    fn rows_used(&self, range: Range) -> String {
        let (d, block) = (self.parties.len(), &self.block);
        let rows = range.rows(&self.told.scheme, block, d).unwrap_or(0);
        format!(
            "{rows} of {} ({})",
            counted(block.prefix_of_block(d), "row"),
            rows_in_order(&self.told.scheme, block, d, rows)
        )
    }
}

const CHECKED: &str = "It is the message that was split: a check of 32 bytes inside it fits.";

const NOT_CHECKED: &str =
    "Nothing of it could be checked: a wrong scheme, party, prefix, form or number of readers, or a row \
                           that has not come, can go unnoticed.";
