//! The basis and the opener against the other implementation, and round trips, in both forms of message.

use comparison::cases::{all_schemes, length, lengths, parties, schemes, sets_of_parties, Call, Form, Scheme, FORMS};
use comparison::random::Random;
use comparison::{calls, compare};
use gilunavoi::limits::*;

#[test]
fn the_basis_of_every_list_of_parties() {
    let mut random = Random::new(7);
    let mut lists = 0;
    for chosen in 0..1u32 << MAX_PARTIES {
        let parties: Vec<u8> = (1..=MAX_PARTIES).filter(|i| chosen >> (i - 1) & 1 == 1).collect();
        let d = parties.len() as u8;
        // With fewer than two parties no scheme is accepted.
        if let Some(scheme) = Scheme::new(MAX_PARTIES, MAX_PARTIES - d, 1, vec![d]) {
            assert_eq!(compare::basis(&Call::new(Form::Earlier, &scheme, 0, parties), &mut random), Ok(()));
            lists += 1;
        }
    }
    println!("{lists} lists");
    assert_eq!(lists, (1 << MAX_PARTIES) - MAX_PARTIES as usize - 1);
}

#[test]
fn bases_of_drawn_schemes() {
    let mut random = Random::new(8);
    for case in 0..10_000 {
        let scheme = if case % 10 == 0 { Scheme::default() } else { Scheme::drawn(&mut random, MAX_BLOCK) };
        let call = Call::drawn(&mut random, Form::Earlier, &scheme, 0);
        assert_eq!(compare::basis(&call, &mut random), Ok(()));
    }
    println!("10000 lists");
}

/// Opens prefixes for schemes with blocks of at most `longest` bytes: in the earlier form bytes that no splitter wrote, in
/// the padded form those of drawn messages.
fn openings(seed: u64, calls: usize, longest: usize, blocks: usize) {
    let mut random = Random::new(seed);
    for case in 0..calls {
        let scheme = if case % 20 == 0 { Scheme::default() } else { Scheme::drawn(&mut random, longest) };
        let length = random.below(blocks * scheme.m + 1);
        for form in FORMS {
            let call = Call::drawn(&mut random, form, &scheme, length);
            assert_eq!(compare::reconstruct(&call, &mut random), Ok(()));
        }
    }
    println!("{calls} openings in both forms of blocks of at most {longest} bytes");
}

#[test]
fn openings_of_short_blocks() {
    openings(9, 20_000, 24, 3);
    openings(10, 1000, 12, 140);
}

#[test]
fn openings_of_longer_blocks() {
    openings(11, 6000, 60, 3);
    openings(12, 2000, 120, 3);
    openings(13, 300, MAX_BLOCK, 3);
}

#[test]
fn openings_of_the_longest_blocks() {
    let mut random = Random::new(14);
    let scheme = Scheme::new(9, 3, 1, vec![9, 8, 7, 6]).unwrap();
    for d in [9, 8, 7, 6] {
        for form in FORMS {
            let call = Call::new(form, &scheme, 2000, parties(&mut random, 9, d));
            assert_eq!(compare::reconstruct(&call, &mut random), Ok(()));
        }
    }
    println!("4 openings in both forms of blocks of {} bytes", scheme.m);
}

/// A message under drawn keys: its bytes and its shares, one after another.
struct Split {
    message: Vec<u8>,
    keys: Vec<u8>,
    shares: Vec<u8>,
}

fn split(call: &Call, random: &mut Random) -> Split {
    let (message, keys) = (random.bytes(call.length), random.bytes(call.keys));
    let mut shares = vec![0; call.shares];
    let written = calls::split(call, &message, &keys, &mut shares);
    assert_eq!(written, Ok(call.share as u64), "{call:?}");
    Split { message, keys, shares }
}

/// Hands out the prefixes of the call's parties and opens them: message and length come back, and in the padded form the
/// padding.
fn comes_back(call: &Call, split: &Split) {
    let mut prefixes = Vec::new();
    for &party in &call.parties {
        let share = &split.shares[(party as usize - 1) * call.share..][..call.share];
        let bytes = calls::prefix(call, share).unwrap();
        prefixes.extend(&share[..bytes as usize]);
    }
    let mut opened = vec![1; call.message];
    let answer = calls::reconstruct(call, &prefixes, &mut opened);
    assert_eq!(answer, Ok((call.prefixes as u64, call.length as u64)), "{call:?}");
    let (message, padding) = opened.split_at(call.length);
    assert!(message == split.message, "{call:?}");
    match call.form {
        Form::Earlier => assert_eq!(padding, [], "{call:?}"),
        Form::Padded => assert!(padding[0] == 128 && padding[1..].iter().all(|&byte| byte == 0), "{call:?}"),
    }
}

/// Splits a message of this length for one count, with the shares that the other implementation makes too, and opens it
/// from several sets of parties. Opens as many times what no splitter wrote, or in the padded form other messages.
fn round_trips(random: &mut Random, form: Form, scheme: &Scheme, length: usize, d: u8) -> usize {
    let sets = sets_of_parties(random, scheme.n, d);
    let call = Call::new(form, scheme, length, sets[0].clone());
    let split = split(&call, random);
    let expected = compare::expected_shares(&call, &split.message, &split.keys);
    assert!(expected.as_ref() == Ok(&split.shares), "{call:?}");
    for parties in &sets {
        let call = Call::new(form, scheme, length, parties.clone());
        comes_back(&call, &split);
        assert_eq!(compare::reconstruct(&call, random), Ok(()));
    }
    sets.len()
}

#[test]
fn every_count_and_the_ends_of_blocks_and_batches() {
    let mut random = Random::new(22);
    let (mut cases, mut openings) = (0, 0);
    for scheme in schemes() {
        for length in lengths(scheme.m) {
            for &d in &scheme.counts {
                for form in FORMS {
                    openings += round_trips(&mut random, form, &scheme, length, d);
                    cases += 1;
                }
            }
        }
    }
    println!("{cases} cases, {openings} openings of shares, and as many of other prefixes");
    assert_eq!(cases, 2 * 231);
}

/// Blocks of one byte: the longest message makes one block more than it has bytes.
#[test]
fn the_most_blocks() {
    let scheme = Scheme::new(2, 0, 1, vec![2]).unwrap();
    let call = Call::new(Form::Padded, &scheme, MAX_MESSAGE, vec![1, 2]);
    assert_eq!((call.message, call.share, call.prefixes), (16_385, 16_385, 32_770));
    let mut random = Random::new(25);
    comes_back(&call, &split(&call, &mut random));
    assert_eq!(compare::reconstruct(&call, &mut random), Ok(()));
}

#[test]
fn what_was_split_comes_back() {
    let mut random = Random::new(15);
    let mut schemes = 0;
    // Every third scheme, for the time that it takes.
    for scheme in all_schemes().iter().step_by(3) {
        let length = 1 + random.below(2 * scheme.m);
        for form in FORMS {
            let call = Call::drawn(&mut random, form, scheme, length);
            comes_back(&call, &split(&call, &mut random));
        }
        schemes += 1;
    }
    println!("{schemes} schemes in both forms");
    assert!(schemes > 16_000);
}

#[test]
fn longer_messages_come_back_for_every_count() {
    let mut random = Random::new(16);
    let mut openings = 0;
    for case in 0..4000 {
        let scheme = if case % 10 == 0 { Scheme::default() } else { Scheme::drawn(&mut random, MAX_BLOCK) };
        let length = if case % 10 == 1 { MAX_MESSAGE } else { length(&mut random, scheme.m) };
        for &d in &scheme.counts {
            for form in FORMS {
                let call = Call::new(form, &scheme, length, parties(&mut random, scheme.n, d));
                comes_back(&call, &split(&call, &mut random));
                openings += 1;
            }
        }
    }
    println!("{openings} openings");
    assert!(openings > 8000);
}
