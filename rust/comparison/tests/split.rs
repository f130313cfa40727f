//! Splitting and prefixes against the other implementation, in both forms of message.

use comparison::cases::{all_schemes, length, Call, Form, Scheme, FORMS};
use comparison::random::Random;
use comparison::{compare, reference};
use gilunavoi::limits::*;
use gilunavoi::raw;

#[test]
fn shares_of_drawn_schemes() {
    let mut random = Random::new(3);
    for case in 0..6000 {
        let scheme = Scheme::drawn(&mut random, MAX_BLOCK);
        let length = if case % 100 == 0 { MAX_MESSAGE - random.below(2) } else { length(&mut random, scheme.m) };
        for form in FORMS {
            let call = Call::drawn(&mut random, form, &scheme, length);
            assert_eq!(compare::split(&call, &mut random), Ok(()));
        }
    }
    println!("6000 messages in both forms");
}

#[test]
fn shares_of_every_scheme() {
    let mut random = Random::new(4);
    let schemes = all_schemes();
    for scheme in &schemes {
        // Mostly one block, for the time that it takes.
        let before = [0, 0, 0, scheme.m][random.below(4)];
        let length = before + 1 + random.below(scheme.m);
        for form in FORMS {
            let call = Call::drawn(&mut random, form, scheme, length);
            assert_eq!(compare::split(&call, &mut random), Ok(()));
        }
    }
    println!("{} schemes in both forms", schemes.len());
    assert_eq!(schemes.len(), 50_975);
}

#[test]
fn every_prefix_of_every_scheme() {
    let mut random = Random::new(5);
    let (mut calls, mut accepted) = (0, 0);
    for scheme in all_schemes() {
        let length = random.below(3 * scheme.m + 1);
        for form in FORMS {
            let mut call = Call::drawn(&mut random, form, &scheme, length);
            for d in 0..=MAX_PARTIES as usize + 1 {
                call.d = d;
                calls += 1;
                accepted += compare::prefix(&call, &mut random).is_ok() as usize;
            }
        }
    }
    println!("{calls} prefixes, {accepted} accepted");
    assert!(accepted > 200_000 && accepted < calls / 2);
}

#[test]
fn the_default_scheme() {
    let mut random = Random::new(6);
    // Around the ends of one, two and four batches of 64 blocks of 6 bytes, and of the longest message.
    let ends = [1535, 1536, 1537, MAX_MESSAGE - 4, MAX_MESSAGE - 1, MAX_MESSAGE];
    let lengths: Vec<usize> = (0..=100).chain(376..=392).chain(760..=780).chain(ends).collect();
    for &length in &lengths {
        for form in FORMS {
            let mut call = Call::drawn(&mut random, form, &Scheme::default(), length);
            assert_eq!(compare::split(&call, &mut random), Ok(()));
            for d in 3..=5 {
                call.d = d;
                assert_eq!(compare::prefix(&call, &mut random), Ok(()));
            }
        }
    }
    println!("{} messages in both forms, twice", lengths.len());
}

/// A share of a padded message has as many bytes as some accepted message gives, and all that have are accepted.
#[test]
fn every_length_of_a_padded_share() {
    let mut random = Random::new(23);
    let mut lengths = 0;
    // Blocks of 6, 12, 1, 6, 90 and 840 bytes in 6, 6, 1, 6, 18 and 168 rows.
    let schemes: [(u8, u8, u8, &[u8]); 6] = [
        (DEFAULT_N, DEFAULT_R, DEFAULT_Z, &DEFAULT_COUNTS),
        (FORMER_DEFAULT_N, FORMER_DEFAULT_R, FORMER_DEFAULT_Z, &FORMER_DEFAULT_COUNTS),
        (2, 0, 1, &[2]),
        (7, 3, 3, &[6, 5, 4]),
        (12, 4, 3, &[12, 9, 8]),
        (9, 3, 1, &[9, 8, 7, 6]),
    ];
    for (n, r, z, counts) in schemes {
        let scheme = Scheme::new(n, r, z, counts.to_vec()).unwrap();
        let most = MAX_MESSAGE / scheme.m + 1;
        let mut call = Call::drawn(&mut random, Form::Padded, &scheme, 0);
        for share in 0..=(most + 1) * scheme.b {
            call.share = share;
            let whole = share % scheme.b == 0 && share > 0 && share <= most * scheme.b;
            assert_eq!(compare::prefix(&call, &mut random), if whole { Ok(()) } else { Err(9) }, "{call:?}");
            lengths += 1;
        }
    }
    println!("{lengths} lengths");
}

/// The padded form is the earlier form of whole blocks: the message, one byte 128 and zeros. Both splitters are the
/// library's here.
#[test]
fn padded_shares_are_those_of_the_whole_blocks() {
    let mut random = Random::new(24);
    for case in 0..2000 {
        let s = if case % 10 == 0 { Scheme::default() } else { Scheme::drawn(&mut random, MAX_BLOCK) };
        // Its whole blocks have to be no longer than a message.
        let length = length(&mut random, s.m).min(MAX_MESSAGE - s.m);
        let call = Call::drawn(&mut random, Form::Padded, &s, length);
        let (message, keys) = (random.bytes(length), random.bytes(call.keys));
        let mut string = message.clone();
        string.push(128);
        string.resize(call.message, 0);
        let (mut shares, mut of_blocks) = (vec![1; call.shares], vec![2; call.shares]);
        let answer = raw::split_padded(s.n, s.r, s.z, &s.counts, &message, &keys, &mut shares);
        assert_eq!(answer, Ok(call.share as u64), "{call:?}");
        assert_eq!(raw::split(s.n, s.r, s.z, &s.counts, &string, &keys, &mut of_blocks), answer, "{call:?}");
        assert!(shares == of_blocks, "{call:?}");
        assert!(shares == reference::shares_of_blocks(s.n, s.z, &s.counts, s.m, &string, &keys), "{call:?}");
    }
    println!("2000 messages");
}
