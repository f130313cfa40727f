//! The end of a padded message: where the opener finds it, and what it refuses because no padded message ends so. Both
//! implementations are asked each time, and the output lies between guard bytes.

use comparison::cases::{accepted, parties, Call, Form, Scheme};
use comparison::compare::{reconstruct, Agreed};
use comparison::random::Random;
use gilunavoi::limits::MAX_MESSAGE;
use gilunavoi::raw;

/// Blocks of 1, 2, 6 and 24 bytes, of 6 in the default scheme and of 12 in the former; one and two colluding parties; one
/// count, neighbouring counts and gaps.
fn schemes() -> Vec<Scheme> {
    let others = accepted([(2, 0, 1, &[2]), (3, 1, 1, &[3, 2]), (7, 4, 1, &[7, 4, 3]), (10, 4, 2, &[10, 8, 6])]);
    [&others[..], &[Scheme::default(), Scheme::former_default()]].concat()
}

/// A call for every count, of messages of this length.
fn calls(random: &mut Random, scheme: &Scheme, length: usize) -> Vec<Call> {
    let call = |&d: &u8| Call::new(Form::Padded, scheme, length, parties(random, scheme.n, d));
    scheme.counts.iter().map(call).collect()
}

/// The first place of the last block.
fn last_block(call: &Call) -> usize {
    call.message - call.scheme.m
}

/// Opens blocks with this end in place of the call's own.
fn with_end(random: &mut Random, call: &Call, place: usize, byte: u8) -> Agreed {
    reconstruct(&Call { end: Some((place, byte)), ..call.clone() }, random)
}

/// The message may end at every place of the last block, whether it is the first block, in the middle of a batch of 64 or
/// at either side of its end.
#[test]
fn every_place_of_the_last_block() {
    let mut random = Random::new(26);
    let mut openings = 0;
    for scheme in schemes() {
        for before in [0, 1, 62, 63, 64] {
            for place in 0..scheme.m {
                for call in calls(&mut random, &scheme, before * scheme.m + place) {
                    assert_eq!(reconstruct(&call, &mut random), Ok(()));
                    openings += 1;
                }
            }
        }
    }
    println!("{openings} openings");
}

/// Of all bytes that may be the last one that is not 0, only 128 is an end.
#[test]
fn every_last_byte() {
    let mut random = Random::new(27);
    for scheme in schemes() {
        for length in [scheme.m - 1, scheme.m, 2 * scheme.m + scheme.m / 2] {
            for call in calls(&mut random, &scheme, length) {
                for byte in 1..=255 {
                    let expected = if byte == 128 { Ok(()) } else { Err(11) };
                    assert_eq!(with_end(&mut random, &call, length, byte), expected, "{byte}, {call:?}");
                }
            }
        }
    }
}

/// The end is not looked for in an earlier block, though there the last byte that is not 0 is 128.
#[test]
fn a_last_block_of_zeros() {
    let mut random = Random::new(28);
    for scheme in schemes() {
        for length in [0, scheme.m, 2 * scheme.m - 1, 63 * scheme.m, 64 * scheme.m, MAX_MESSAGE] {
            for call in calls(&mut random, &scheme, length) {
                let last = last_block(&call);
                // Nothing but zeros, and 128 in the block before: as its first byte and as its last.
                assert_eq!(with_end(&mut random, &call, 0, 0), Err(11));
                for before in [scheme.m, 1].into_iter().filter(|&before| before <= last) {
                    assert_eq!(with_end(&mut random, &call, last - before, 128), Err(11), "{call:?}");
                }
            }
        }
    }
}

/// In the longest string of blocks that is accepted, an end after the longest message is refused.
#[test]
fn an_end_after_the_longest_message() {
    let mut random = Random::new(29);
    let mut refused = 0;
    let longest_block = Scheme::new(9, 3, 1, vec![9, 8, 7, 6]).unwrap();
    for scheme in schemes().into_iter().chain([longest_block]) {
        for call in calls(&mut random, &scheme, MAX_MESSAGE) {
            let places = [last_block(&call), MAX_MESSAGE, MAX_MESSAGE + 1, MAX_MESSAGE + 2, call.message - 1];
            for place in places.into_iter().filter(|&place| place < call.message) {
                let expected = if place <= MAX_MESSAGE { Ok(()) } else { Err(11) };
                assert_eq!(with_end(&mut random, &call, place, 128), expected, "{place}, {call:?}");
                refused += expected.is_err() as usize;
            }
        }
    }
    println!("{refused} ends after the longest message");
    assert!(refused > 20);
}

/// Prefixes that no splitter wrote: most of them have no end, and some have one by chance.
#[test]
fn drawn_prefixes() {
    let mut random = Random::new(30);
    let mut accepted = 0;
    for case in 0..20_000 {
        let scheme = if case % 20 == 0 { Scheme::default() } else { Scheme::drawn(&mut random, 12) };
        let length = random.below(3 * scheme.m);
        let call = Call { end: None, ..Call::drawn(&mut random, Form::Padded, &scheme, length) };
        match reconstruct(&call, &mut random) {
            Ok(()) => accepted += 1,
            Err(number) => assert_eq!(number, 11, "{call:?}"),
        }
    }
    println!("{accepted} of 20000 openings have an end");
    // One of the 255 bytes that are not 0 is an end.
    assert!((50..130).contains(&accepted));
}

/// Prefixes have as many bytes as some accepted message gives: a whole number of blocks, at least one, and no more than the
/// longest message has.
#[test]
fn lengths_of_prefixes() {
    let mut random = Random::new(31);
    let mut lengths = 0;
    for scheme in schemes() {
        let most = MAX_MESSAGE / scheme.m + 1;
        for blocks in [0, 1, 2, most - 1, most, most + 1, most + 2] {
            for mut call in calls(&mut random, &scheme, (blocks.max(1) - 1) * scheme.m) {
                let whole = if blocks == 0 { 0 } else { call.prefixes };
                call.message = blocks * scheme.m;
                for length in [whole.checked_sub(1), Some(whole), Some(whole + 1)].into_iter().flatten() {
                    call.prefixes = length;
                    let expected = if length == whole && (1..=most).contains(&blocks) { Ok(()) } else { Err(9) };
                    assert_eq!(reconstruct(&call, &mut random), expected, "{call:?}");
                    lengths += 1;
                }
            }
        }
    }
    println!("{lengths} lengths");
}

/// Shares of the earlier form, taken for padded ones. Their prefixes are as long; they are opened only if the message
/// itself ends as a padded one does, and then it is cut there.
#[test]
fn shares_of_the_earlier_form() {
    let parties = [1, 2, 4];
    for (ending, expected) in [
        (&b" noon."[..], Err(11)),
        (&[0, 0, 0, 0, 0, 0], Err(11)),
        (&[7, 0, 0, 0, 0, 0], Err(11)),
        (&[7, 7, 7, 7, 7, 128], Ok((90, 28))),
        (&[7, 7, 128, 0, 0, 0], Ok((90, 25))),
        (&[128, 0, 128, 0, 0, 1], Err(11)),
    ] {
        let message = [b"Call the client before ", ending].concat();
        // 29 bytes in 5 blocks of 6.
        let (mut shares, mut opened) = (vec![0; 5 * 30], vec![3; 30]);
        assert_eq!(raw::split_default(&message, &[9; 60], &mut shares), Ok(30));
        let share = |party: &u8| &shares[(*party as usize - 1) * 30..][..30];
        assert_eq!(raw::prefix_padded_default(3, share(&1)), Ok(30));
        let prefixes: Vec<u8> = parties.iter().flat_map(share).copied().collect();
        let answer = raw::reconstruct_padded_default(&parties, &prefixes, &mut opened);
        assert_eq!(answer, expected, "{ending:?}");
        match answer {
            Ok(_) => assert!(opened[..29] == message && opened[29..] == [0]),
            Err(_) => assert_eq!(opened, [3; 30]),
        }
    }
}
