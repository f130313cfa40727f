//! Every refusal comes out of some call, under its number and its name, and has words.

use gilunavoi::archive::{self, Archive};
use gilunavoi::limits::{MAX_ENTRIES, MAX_MESSAGE};
use gilunavoi::{Form, NotRebuilt, Pool, Refusal, Scheme};
use std::collections::HashSet;
use std::error::Error;

/// A message of two bytes in the rules' scheme A, n 3, r 1, z 1, counts 3 2, under the keys 9 4.
const SHARES: [[u8; 2]; 3] = [[11, 3], [31, 10], [29, 13]];

fn scheme_a() -> Scheme {
    Scheme::new(3, 1, 1, &[3, 2]).expect("scheme A")
}

/// The refusals by calls of their own, in the order of their numbers.
fn refused() -> [Refusal; 18] {
    let (a, shares, mut out) = (scheme_a(), SHARES.concat(), [7; 6]);
    let long = vec![0; MAX_MESSAGE + 1];
    let refusals = [
        Scheme::new(17, 1, 1, &[3, 2]).map(drop),
        Scheme::new(3, 1, 2, &[3, 2]).map(drop),
        Scheme::new(3, 1, 1, &[2, 3]).map(drop),
        Scheme::new(10, 4, 1, &[10, 9, 8, 6]).map(drop),
        a.split(Form::Earlier, &long, &[], &mut out).map(drop),
        a.prefix_padded(1, &SHARES[0]).map(drop),
        a.reconstruct(2, &[3, 1], &shares[..4], &mut out).map(drop),
        a.split(Form::Earlier, &[5, 7], &[9], &mut out).map(drop),
        a.reconstruct(2, &[1, 2], &shares[..3], &mut out).map(drop),
        a.reconstruct(2, &[1, 2], &shares[..4], &mut out).map(drop),
        a.reconstruct_padded(&[1, 2], &shares[..4], &mut out[..2]).map(drop),
        Archive::open(&[255, 255]).map(drop),
        Archive::open(&[1, 0, 6, 0, 0, 0]).map(drop),
        Archive::open(&[0, 0]).and_then(|archive| archive.entry(0)).map(drop),
        a.reconstruct_range(2, usize::MAX, 1, &[1, 2], &shares[..4], &mut out[..1]).map(drop),
        a.split_from_pool(Form::Earlier, &mut Pool::new(vec![9]), &[5, 7], &mut out).map(drop),
        a.rebuild(&[1], &SHARES[0], 2, None, &mut out[..2]).map(drop).map_err(|not_rebuilt| not_rebuilt.refusal),
        a.rebuild(&[1, 2, 3], &[11, 2, 31, 10, 29, 13], 2, None, &mut out[..2])
            .map(drop)
            .map_err(|error| error.refusal),
    ];
    assert_eq!(out, [7; 6], "nothing is written");
    refusals.map(|answer| answer.expect_err("a refusal"))
}

#[test]
fn every_number() {
    use Refusal::*;
    let names = [
        PartyCount,
        Colluders,
        Counts,
        BlockTooLong,
        MessageTooLong,
        NotACount,
        Parties,
        KeyLength,
        ShareLength,
        OutputLength,
        Padding,
        ArchiveCount,
        ArchiveEntries,
        NoSuchEntry,
        Range,
        Refusal::Pool,
        TooFewShares,
        Disagreement,
    ];
    assert_eq!(refused(), names);
    assert_eq!(names.map(Refusal::number).to_vec(), (1..=18).collect::<Vec<u64>>());
    for refusal in names {
        assert_eq!(Refusal::from_number(refusal.number()), Some(refusal));
    }
    for number in [0, 19, 256 + 1, u64::MAX] {
        assert_eq!(Refusal::from_number(number), None);
    }
}

#[test]
fn words() {
    let words: HashSet<String> = refused().iter().map(Refusal::to_string).collect();
    assert_eq!(words.len(), 18, "no two are the same");
    assert!(words.iter().all(|words| words.len() > 20 && !words.contains("  ")), "{words:?}");
    assert_eq!(Refusal::MessageTooLong.to_string(), format!("the message is longer than {MAX_MESSAGE} bytes"));
}

/// Errors that have a refusal in them hand it on.
#[test]
fn sources() {
    let source = |error: &dyn Error| error.source().map(|source| *source.downcast_ref::<Refusal>().expect("a refusal"));
    let not_rebuilt = scheme_a().rebuild(&[1], &SHARES[0], 2, None, &mut [0; 2]).expect_err("too few");
    assert_eq!(source(&not_rebuilt), Some(Refusal::TooFewShares));
    let parse = |text: &str| text.parse::<Scheme>().expect_err("no scheme");
    assert_eq!(source(&parse("5,2,2,3,4,5")), Some(Refusal::Counts));
    assert_eq!(source(&parse("five")), None);
    assert_eq!(source(&Refusal::Counts), None);
}

#[test]
fn writing_archives() {
    assert_eq!(archive::write(&vec![&[1][..]; MAX_ENTRIES + 1]), Err(Refusal::ArchiveCount));
    assert_eq!(archive::write(&[&[]]), Err(Refusal::ArchiveEntries));
}

#[test]
fn who_is_named() {
    let scheme = Scheme::new(4, 2, 1, &[3, 2]).expect("a scheme");
    let parties = [1, 2, 3, 4];
    let mut share = [0; 2];
    let mut named = |shares: [u8; 8]| scheme.rebuild(&parties, &shares, 2, None, &mut share).expect_err("a refusal");
    let refusal = Refusal::Disagreement;
    let one = named([11, 2, 31, 10, 29, 13, 109, 24]);
    assert_eq!(one, NotRebuilt { refusal, party: Some(1) });
    assert!(one.to_string().starts_with(&refusal.to_string()) && one.to_string().contains("party 1"), "{one}");
    let none = named([11, 2, 31, 10, 29, 12, 109, 24]);
    assert_eq!(none, NotRebuilt { refusal, party: None });
    assert_eq!(none.to_string(), refusal.to_string());
}
