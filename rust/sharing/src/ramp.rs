//! What parties that put their shares together learn, in words, and what it costs that too few to open a message learn
//! nothing.

use crate::report::listed;
use crate::scheme::{in_a_row, Scheme};

/// Of an accepted scheme: up to Z parties learn nothing and N - R open the message. Who stands between the two, if anybody
/// does, learns part of it.
pub fn ramp(scheme: &Scheme) -> String {
    let (z, enough) = (scheme.z, scheme.enough());
    let learn = if z == 1 { "1 party learns".to_string() } else { format!("Up to {z} parties together learn") };
    let text = format!("{learn} nothing of a message but its length in blocks, and any {enough} open it.\n");
    match part(scheme).zip(scheme.with_shamirs_promise()) {
        Some((part, other)) => text + &part + &offer(scheme, &other),
        None => {
            text + &format!(
                "No number of parties learns only part of it: fewer than {enough} learn nothing, which is Shamir's \
                 promise.\n"
            )
        }
    }
}

/// Of an accepted scheme: how many parties learn part of a message and cannot open it, if any do. `it` is what the message is
/// called there.
pub fn learn_part(scheme: &Scheme, it: &str) -> Option<String> {
    let (fewest, most) = (scheme.z + 1, scheme.enough() - 1);
    let up_to = if fewest == most { String::new() } else { format!(" to {most}") };
    (fewest <= most).then(|| format!("{fewest}{up_to} parties together learn part of {it}"))
}

/// The keys of Z shares follow from a guess of the message, and with them every other share: a wrong guess fits one share
/// more by chance alone.
fn part(scheme: &Scheme) -> Option<String> {
    let learn = learn_part(scheme, "it")?;
    let fewest = scheme.z + 1;
    let already = if fewest == scheme.enough() - 1 { String::new() } else { format!("already {fewest} ") };
    Some(format!(
        "{learn}, and {already}can test a guess of all of it, whatever the keys: a wrong one hardly ever fits.\n"
    ))
}

/// The scheme in which nobody learns only part, and its price beside that of this one.
fn offer(scheme: &Scheme, other: &Scheme) -> String {
    let same_counts = other.counts == scheme.counts;
    let why = format!(" (its block would be too long with the counts {})", in_a_row(&scheme.counts));
    let from = format!(" from {} parties", counts(scheme));
    format!(
        "Where fewer than {} shall learn nothing, which is Shamir's promise, take {}{}. Its price:\n\
         a share {} as the message, not {}; {} key bytes for a message byte, not {};\n\
         {} bytes to fetch for a message byte from {} parties, not {}{}.\n",
        scheme.enough(),
        other.in_a_row(),
        if same_counts { "" } else { &why },
        long(other),
        long(scheme),
        keys(other),
        keys(scheme),
        fetched(other),
        counts(other),
        fetched(scheme),
        if same_counts { "" } else { &from },
    )
}

/// One of so many equal parts, from two on. No scheme has more than 15.
#[rustfmt::skip]
const PARTS: [&str; 14] = [
    "half", "a third", "a quarter", "a fifth", "a sixth", "a seventh", "an eighth", "a ninth", "a tenth", "an eleventh",
    "a twelfth", "a thirteenth", "a fourteenth", "a fifteenth",
];

/// How long a share is beside its message.
fn long(scheme: &Scheme) -> String {
    match scheme.enough() - scheme.z {
        1 => "as long".to_string(),
        many => format!("{} as long", PARTS[many as usize - 2]),
    }
}

/// The key bytes that a message byte takes.
fn keys(scheme: &Scheme) -> String {
    quotient(scheme.z, scheme.enough() - scheme.z)
}

/// The bytes that are fetched for a message byte, for each count.
fn fetched(scheme: &Scheme) -> String {
    listed(scheme.counts.iter().map(|&d| quotient(d, d - scheme.z)))
}

fn counts(scheme: &Scheme) -> String {
    listed(scheme.counts.iter().map(u8::to_string))
}

/// A quotient as it is said: a whole number, a proper fraction, or both.
fn quotient(dividend: u8, divisor: u8) -> String {
    let (whole, rest) = (dividend / divisor, dividend % divisor);
    let common = common_divisor(divisor, rest);
    let fraction = format!("{}/{}", rest / common, divisor / common);
    match (whole, rest) {
        (_, 0) => whole.to_string(),
        (0, _) => fraction,
        _ => format!("{whole} {fraction}"),
    }
}

fn common_divisor(a: u8, b: u8) -> u8 {
    if b == 0 {
        a
    } else {
        common_divisor(b, a % b)
    }
}
