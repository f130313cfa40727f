//! One call of the proved library and of the other implementation, held against each other: the answer, every byte of
//! the output, and the bytes around it. Where the scheme is the default, the form without a scheme is called too.

use crate::cases::{Call, Form, Scheme};
use crate::random::Random;
use crate::{calls, reference};
use gilunavoi::raw;
use std::fmt::Debug;
use std::ops::Range;

pub mod archive;
pub mod pool;
pub mod range;
pub mod rebuild;

/// On what the two agree: that the call is accepted, or its refusal.
pub type Agreed = Result<(), u64>;

/// A comparison.
pub type Compare = fn(&Call, &mut Random) -> Agreed;

/// Bytes for a call to read, from any place in memory on, between guard bytes. All of them have to be there unchanged when
/// it is over.
struct Lent {
    bytes: Vec<u8>,
    before: Vec<u8>,
    place: Range<usize>,
}

impl Lent {
    /// Drawn ones.
    fn new(random: &mut Random, length: usize) -> Lent {
        let bytes = random.bytes(length);
        Lent::of(random, &bytes)
    }

    fn of(random: &mut Random, bytes: &[u8]) -> Lent {
        let (start, end) = (8 + random.below(16), 8 + random.below(16));
        let all = [&random.bytes(start), bytes, &random.bytes(end)].concat();
        Lent { before: all.clone(), bytes: all, place: start..start + bytes.len() }
    }

    fn bytes(&self) -> &[u8] {
        &self.bytes[self.place.clone()]
    }
}

impl Drop for Lent {
    fn drop(&mut self) {
        assert!(
            std::thread::panicking() || self.bytes == self.before,
            "bytes that were only to be read, or around them"
        );
    }
}

/// Lends a call its output between guard bytes. It has to answer and to write what is expected, or to refuse and to
/// write nothing.
fn written<Value: Copy + Debug + PartialEq, Refusal: Copy + Debug + PartialEq>(
    call: &impl Debug,
    random: &mut Random,
    length: usize,
    expected: &Result<(Value, Vec<u8>), Refusal>,
    run: impl FnOnce(&mut [u8]) -> Result<Value, Refusal>,
) {
    let (start, end) = (8 + random.below(16), 8 + random.below(16));
    let mut after = random.bytes(start + length + end);
    let mut buffer = after.clone();
    let answer = run(&mut buffer[start..start + length]);
    if let Ok((_, bytes)) = expected {
        after[start..start + length].copy_from_slice(bytes);
    }
    assert_eq!(answer, expected.as_ref().map(|(value, _)| *value).map_err(|refusal| *refusal), "{call:?}");
    assert!(buffer == after, "bytes of the output or around it, {call:?}");
}

/// Both forms of the check: the one that also answers how many multiples were tried, and the one that does not.
pub fn check(s: &Scheme) -> Agreed {
    let (expected, tried) = reference::check_tried(s.n, s.r, s.z, &s.counts);
    assert_eq!(raw::check(s.n, s.r, s.z, &s.counts), expected, "{s:?}");
    assert_eq!(raw::check_tried(s.n, s.r, s.z, &s.counts), (expected, tried), "{s:?}");
    if s.is_default() {
        assert_eq!(raw::check_default(), expected);
        assert_eq!(raw::check_tried_default(), (expected, tried));
    }
    expected.map(|_| ())
}

/// The lengths of a message of so many bytes, in both forms.
pub fn lengths(s: &Scheme, length: usize) -> Agreed {
    let expected = reference::lengths::lengths(s.n, s.r, s.z, &s.counts, length);
    let padded = reference::lengths::lengths_padded(s.n, s.r, s.z, &s.counts, length);
    assert_eq!(raw::lengths(s.n, s.r, s.z, &s.counts, length), expected, "{s:?}, {length}");
    assert_eq!(raw::lengths_padded(s.n, s.r, s.z, &s.counts, length), padded, "{s:?}, {length}");
    if s.is_default() {
        assert_eq!((raw::lengths_default(length), raw::lengths_padded_default(length)), (expected, padded), "{length}");
    }
    expected.map(|_| ())
}

/// The other implementation's shares.
pub fn expected_shares(call: &Call, message: &[u8], keys: &[u8]) -> Result<Vec<u8>, u64> {
    let s = &call.scheme;
    match call.form {
        Form::Earlier => reference::split(s.n, s.r, s.z, &s.counts, message, keys, call.shares),
        Form::Padded => reference::split_padded(s.n, s.r, s.z, &s.counts, message, keys, call.shares),
    }
}

pub fn split(call: &Call, random: &mut Random) -> Agreed {
    let (message, keys) = (Lent::new(random, call.length), Lent::new(random, call.keys));
    let (message, keys) = (message.bytes(), keys.bytes());
    let shares = expected_shares(call, message, keys);
    let expected = shares.map(|shares| ((shares.len() / call.scheme.n as usize) as u64, shares));
    written(call, random, call.shares, &expected, |out| calls::split(call, message, keys, out));
    if call.scheme.is_default() {
        written(call, random, call.shares, &expected, |out| calls::split_default(call, message, keys, out));
    }
    expected.map(|_| ())
}

pub fn prefix(call: &Call, random: &mut Random) -> Agreed {
    let s = &call.scheme;
    let share = Lent::new(random, call.share);
    let expected = match call.form {
        Form::Earlier => reference::prefix(s.n, s.r, s.z, &s.counts, call.length, call.d, call.share),
        Form::Padded => reference::prefix_padded(s.n, s.r, s.z, &s.counts, call.d, call.share),
    };
    assert_eq!(calls::prefix(call, share.bytes()), expected, "{call:?}");
    if s.is_default() {
        assert_eq!(calls::prefix_default(call, share.bytes()), expected, "{call:?}");
    }
    expected.map(|_| ())
}

pub fn basis(call: &Call, _: &mut Random) -> Agreed {
    let s = &call.scheme;
    let expected = reference::basis(s.n, s.r, s.z, &s.counts, &call.parties).map(|rows| {
        let mut table = [0; raw::WEIGHTS];
        for (i, row) in rows.iter().enumerate() {
            table[raw::ROW_OF_WEIGHTS * i..][..row.len()].copy_from_slice(row);
        }
        table
    });
    assert_eq!(raw::basis(s.n, s.r, s.z, &s.counts, &call.parties), expected, "{call:?}");
    if s.is_default() {
        assert_eq!(raw::basis_default(&call.parties), expected, "{call:?}");
    }
    expected.map(|_| ())
}

/// What the call's parties send of blocks with this end, if its scheme and its parties are accepted; any length in the
/// call may be wrong.
fn prefixes_with_end(call: &Call, (place, byte): (usize, u8), random: &mut Random) -> Option<Vec<u8>> {
    let s = &call.scheme;
    reference::basis(s.n, s.r, s.z, &s.counts, &call.parties).ok()?;
    let scheme = Scheme::new(s.n, s.r, s.z, s.counts.clone())?;
    let accepted = Call::new(Form::Padded, &scheme, call.length, call.parties.clone());
    let mut string = random.bytes(place);
    string.push(byte);
    string.resize(accepted.message, 0);
    let keys = random.bytes(accepted.keys);
    let shares = reference::shares_of_blocks(s.n, s.z, &s.counts, scheme.m, &string, &keys);
    Some(accepted.sent(&shares))
}

/// What the readers lend: drawn bytes, or as far as it goes what was sent of blocks with the call's end.
fn lent_prefixes(call: &Call, random: &mut Random) -> Lent {
    let mut bytes = random.bytes(call.prefixes);
    let sent = call.end.and_then(|end| prefixes_with_end(call, end, random)).unwrap_or_default();
    bytes.iter_mut().zip(sent).for_each(|(byte, sent)| *byte = sent);
    Lent::of(random, &bytes)
}

pub fn reconstruct(call: &Call, random: &mut Random) -> Agreed {
    let s = &call.scheme;
    let prefixes = lent_prefixes(call, random);
    let (parties, prefixes) = (&call.parties[..], prefixes.bytes());
    let expected = match call.form {
        Form::Earlier => {
            let opened = reference::reconstruct(s.n, s.r, s.z, &s.counts, call.length, parties, prefixes, call.message);
            opened.map(|(used, message)| ((used, call.length as u64), message))
        }
        Form::Padded => reference::reconstruct_padded(s.n, s.r, s.z, &s.counts, parties, prefixes, call.message),
    };
    written(call, random, call.message, &expected, |out| calls::reconstruct(call, prefixes, out));
    if s.is_default() {
        written(call, random, call.message, &expected, |out| calls::reconstruct_default(call, prefixes, out));
    }
    expected.map(|_| ())
}
