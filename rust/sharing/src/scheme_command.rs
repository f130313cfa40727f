//! The command `scheme`: what a scheme means, and what a block, a message and a range of one cost in it. It also draws the
//! scheme.

use crate::arguments::{usage, Arguments};
use crate::digest;
use crate::failure::{Done, Failure};
use crate::picture::picture;
use crate::ramp::ramp;
use crate::range::{rows_in_order, Range};
use crate::report::{counted, say};
use crate::scheme::{Block, Scheme};
use crate::target::Target;
use std::ffi::OsString;
use std::path::Path;

pub fn run(arguments: &Arguments) -> Done {
    let (range, message) = (Range::of(arguments)?, Message::of(arguments)?);
    let drawing = arguments.option("--picture").map(|file| Target::new(Path::new(file))).transpose()?;
    let scheme = Scheme::from_words(arguments.words.iter().map(OsString::as_os_str))?;
    let block = scheme.check()?;
    let mut text = format!("{scheme}\n{}{}", of_a_block(&block), ramp(&scheme));
    text += &block_table(&scheme, &block, range)?;
    if let Some(message) = message {
        text += &message.costs(&scheme).map_err(|number| message.refused(number))?;
    }
    match drawing {
        None => say(&text),
        Some(target) => {
            let told = format!("{text}The picture of the scheme is {}.\n", target.there());
            target.put(picture(&scheme, &block).as_bytes(), &told)
        }
    }
}

fn of_a_block(block: &Block) -> String {
    let (bytes, rows) = (counted(block.bytes, "byte"), counted(block.rows, "row"));
    format!("A block has {bytes} in {rows}, and takes {}.\n", counted(block.keys, "key byte"))
}

/// What of a block is fetched for each count, and what of that a range needs.
fn block_table(scheme: &Scheme, block: &Block, range: Option<Range>) -> Result<String, Failure> {
    let (needs, columns) = match range {
        None => (String::new(), ""),
        Some(range) => (format!(", and what of them the range {range} needs"), "  rows   of  bytes  which rows"),
    };
    let mut text = format!("Bytes of a block to fetch{needs}:\nparties  from each  in all{columns}\n");
    for d in scheme.counts.iter().map(|&d| d as usize) {
        let bytes = block.prefix_of_block(d);
        text += &format!("{d:7}  {bytes:9}  {:6}", d * bytes);
        if let Some(range) = range {
            // A row is a byte of the block from each party.
            let rows = range.rows(scheme, block, d)?;
            text += &format!("  {rows:4}  {bytes:3}  {:5}  {}", d * rows, rows_in_order(scheme, block, d, rows));
        }
        text += "\n";
    }
    Ok(text)
}

/// A message of which nothing is told but its length, its form and whether it has a check.
struct Message {
    length: usize,
    unpadded: bool,
    checked: bool,
}

impl Message {
    fn of(arguments: &Arguments) -> Result<Option<Message>, Failure> {
        let (unpadded, checked) = (arguments.flag("--unpadded"), arguments.flag("--checked"));
        match arguments.number_if_given("--length")? {
            None if unpadded => usage("--unpadded is the form of a message, and needs --length here".to_string()),
            None if checked => usage("--checked is for a message, and needs --length here".to_string()),
            length => Ok(length.map(|length| Message { length, unpadded, checked })),
        }
    }

    /// The length of what is split. One that is too large for a number stays too large for a message.
    fn with_check(&self) -> usize {
        self.length.saturating_add(if self.checked { digest::LENGTH } else { 0 })
    }

    fn refused(&self, number: u64) -> Failure {
        let given = format!("--length is {}", self.length);
        Failure::Refused(number, if self.checked { digest::too_long(&given) } else { given })
    }

    /// Its keys and shares, and what of them is fetched for each count.
    fn costs(&self, scheme: &Scheme) -> Result<String, u64> {
        let lengths = scheme.lengths(self.unpadded, self.with_check())?;
        let check = format!(" with a check of {} bytes", digest::LENGTH);
        let mut text = format!(
            "A message of {}{}{} makes {} and takes {}.\nA share of it has {}, and all {} shares together have {}.\n",
            counted(self.length, "byte"),
            if self.unpadded { " in the earlier form" } else { "" },
            if self.checked { &check } else { "" },
            counted(lengths.blocks, "block"),
            counted(lengths.keys, "key byte"),
            counted(lengths.share, "byte"),
            scheme.n,
            counted(lengths.output, "byte"),
        );
        text += "Bytes of this message to fetch:\nparties  from each  in all  times the message\n";
        for d in scheme.counts.iter().map(|&d| d as usize) {
            let sent = scheme.sent(self.unpadded, self.with_check(), d)?;
            text += &format!("{d:7}  {sent:9}  {:6}  {:>17}\n", d * sent, self.times(d * sent));
        }
        Ok(text)
    }

    /// How many times the message so many bytes are. No number of times makes anything of a message without a byte.
    fn times(&self, bytes: usize) -> String {
        match self.length {
            0 => "-".to_string(),
            length => format!("{:.2}", bytes as f64 / length as f64),
        }
    }
}
