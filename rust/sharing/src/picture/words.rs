//! What is written in a picture of a scheme.

use crate::ramp::learn_part;
use crate::report::counted;
use crate::rows::Group;
use crate::scheme::{Block, Scheme};
use std::ops::Range;

pub fn title(scheme: &Scheme) -> String {
    format!("The scheme {}", scheme.in_a_row())
}

/// What the scheme is for, and what is drawn.
pub fn introduction(scheme: &Scheme, block: &Block) -> String {
    let learn = if scheme.z == 1 { "1 alone learns".to_string() } else { format!("up to {} learn", scheme.z) };
    let part = learn_part(scheme, "it").map_or(String::new(), |part| format!("{part}, "));
    format!(
        "Any {} of {} parties open a message, {part}and {learn} nothing of it. A block of {} is kept in {}, with {}. A row is a \
         polynomial in x, and each party keeps its value at a point of its own, 1 byte a row. Rows and bytes are counted \
         from 0.",
        scheme.enough(),
        scheme.n,
        counted(block.bytes, "byte"),
        counted(block.rows, "row"),
        counted(block.keys, "key byte")
    )
}

/// For who does not see the picture.
pub fn description(scheme: &Scheme, block: &Block, groups: &[Group]) -> String {
    let counts: Vec<String> = groups.iter().map(|group| sent(group).join(", ")).collect();
    format!("{} What each party sends: {}.", introduction(scheme, block), counts.join("; "))
}

/// What is sent where so many parties are read from, in two parts.
pub fn sent(group: &Group) -> [String; 2] {
    let (d, rows) = (group.d, group.rows.end);
    [format!("{d} parties: {} each", counted(rows, "row")), format!("{} in all", counted(d * rows, "byte"))]
}

/// What stands in the rows of a group.
pub fn caption(group: &Group) -> String {
    match group.before {
        None => "the bytes of the message, in order".to_string(),
        Some(before) => format!("copies of {} in the rows above", powers(group.d..before)),
    }
}

/// What the reasons are for. With a single count there is nothing to compare.
pub fn question(groups: &[Group]) -> &'static str {
    if groups.len() == 1 {
        "How it is opened"
    } else {
        "Why more parties send less"
    }
}

/// Why so many values of each row are enough.
pub fn reason(group: &Group) -> String {
    let (d, rows) = (group.d, named(&group.rows));
    let have = if group.rows.len() == 1 { "has" } else { "each have" };
    let too = if group.before.is_some() { " too" } else { "" };
    let found = format!("{d} parties send {rows}{too}, which {have} {d} coefficients: {d} values give them.");
    match group.before {
        None => found,
        Some(before) => {
            let stand = if before - d == 1 { "stands" } else { "stand" };
            let copied = powers(d..before);
            format!(
                "{found} Among them {stand} {copied} of every row above, so that, going up, only {d} are left to find in \
                 each."
            )
        }
    }
}

fn named(rows: &Range<usize>) -> String {
    match rows.len() {
        1 => format!("row {}", rows.start),
        2 => format!("rows {} and {}", rows.start, rows.end - 1),
        _ => format!("rows {} to {}", rows.start, rows.end - 1),
    }
}

fn powers(degrees: Range<usize>) -> String {
    let (first, last) = (power(degrees.start), power(degrees.end - 1));
    match degrees.len() {
        1 => first,
        2 => format!("{first} and {last}"),
        _ => format!("{first} to {last}"),
    }
}

/// Where a copy comes from.
pub fn origin(row: usize, degree: usize) -> String {
    format!("row {row}, {}", power(degree))
}

/// The power of x that a coefficient stands before.
pub fn power(degree: usize) -> String {
    const RAISED: [char; 10] = ['⁰', '¹', '²', '³', '⁴', '⁵', '⁶', '⁷', '⁸', '⁹'];
    match degree {
        0 => "1".to_string(),
        1 => "x".to_string(),
        _ => {
            format!("x{}", degree.to_string().bytes().map(|digit| RAISED[(digit - b'0') as usize]).collect::<String>())
        }
    }
}
