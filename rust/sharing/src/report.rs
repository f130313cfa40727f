//! What is said where all goes well, and how numbers are said.

use crate::failure::Done;
use crate::standard;
use std::io::Write;

/// Writes to standard output.
pub fn say(text: &str) -> Done {
    standard::write(text.as_bytes())
}

/// The same on standard error, for a report whose place is taken by what it is about: as far as that goes.
pub fn say_aside(text: &str) {
    let _ = write!(std::io::stderr(), "{text}");
}

/// What is worth knowing where standard output is for other programs to read: on standard error, as far as that goes.
pub fn note(text: &str) {
    let _ = writeln!(std::io::stderr(), "sharing: {text}");
}

/// Two things or more in a row, as a sentence has them.
pub fn listed(things: impl Iterator<Item = String>) -> String {
    let things: Vec<String> = things.collect();
    match &things[..] {
        [others @ .., last] if !others.is_empty() => format!("{} and {last}", others.join(", ")),
        _ => things.concat(),
    }
}

/// The same words as a sentence on a line of its own.
pub fn sentence(words: &str) -> String {
    let (first, rest) = words.split_at(words.chars().next().map_or(0, char::len_utf8));
    format!("{}{rest}.\n", first.to_uppercase())
}

/// A number and what it counts.
pub fn counted(number: usize, thing: &str) -> String {
    match thing.strip_suffix('y') {
        _ if number == 1 => format!("1 {thing}"),
        Some(stem) => format!("{number} {stem}ies"),
        None => format!("{number} {thing}s"),
    }
}
