//! Rebuilding a share from whole shares of others: against the shares that were split and the other implementation, with
//! held copies, and with wrong shares, which are refused, and named where there are enough of the others.

use comparison::calls;
use comparison::cases::rebuild::{changed, shares, RebuildCall};
use comparison::cases::{accepted, schemes, sets_of_parties, Form, Scheme, FORMS};
use comparison::compare::rebuild::{as_expected, disagreement, rebuild};
use comparison::random::Random;
use gilunavoi::limits::MAX_MESSAGE;
use gilunavoi::raw::NotRebuilt;

/// The share of a party out of those of all.
fn share_of<'a>(scheme: &Scheme, shares: &'a [u8], party: u8) -> &'a [u8] {
    let share = shares.len() / scheme.n as usize;
    &shares[(party as usize - 1) * share..][..share]
}

/// Rebuilds the share that was split, without a held copy, and with copies of which no byte, one, some and all are others.
fn as_split(call: &RebuildCall, shares: &[u8], random: &mut Random) {
    let share = share_of(&call.scheme, shares, call.party);
    as_expected(call, &Ok((0, share.to_vec())), random);
    for many in [0, 1, random.below(share.len() + 1), share.len()].into_iter().filter(|&many| many <= share.len()) {
        let call = call.with_held(changed(random, share, many));
        as_expected(&call, &Ok((many as u64, share.to_vec())), random);
    }
}

/// The share of one who lends a share is asked for, and that of one who does not, if there is one.
fn within_and_without(random: &mut Random, n: u8, list: &[u8]) -> Vec<u8> {
    let others: Vec<u8> = (1..=n).filter(|party| !list.contains(party)).collect();
    let lists = [list, &others].into_iter().filter(|list| !list.is_empty());
    lists.map(|list| list[random.below(list.len())]).collect()
}

/// Hands on accepted calls in each scheme, for messages of both forms and of these many blocks or so, with all shares:
/// n - r parties to all of them, in several lists.
fn split_messages(random: &mut Random, blocks: &[usize], mut to: impl FnMut(RebuildCall, &[u8], &mut Random)) {
    for scheme in schemes() {
        for (form, blocks) in FORMS.into_iter().flat_map(|form| blocks.iter().map(move |blocks| (form, blocks))) {
            let length = (blocks * scheme.m + random.below(3)).saturating_sub(1).min(MAX_MESSAGE);
            let shares = shares(random, form, &scheme, length);
            for many in scheme.n - scheme.r..=scheme.n {
                for list in sets_of_parties(random, scheme.n, many) {
                    for party in within_and_without(random, scheme.n, &list) {
                        to(RebuildCall::new(&scheme, &shares, list.clone(), party), &shares, random);
                    }
                }
            }
        }
    }
}

#[test]
fn shares_as_they_were_split() {
    let (mut random, mut calls) = (Random::new(60), 0);
    split_messages(&mut random, &[0, 1, 2, 64], |call, shares, random| {
        as_split(&call, shares, random);
        calls += 5;
    });
    println!("{calls} calls");
}

fn refused<T>(refusal: u64) -> Result<T, NotRebuilt> {
    Err(NotRebuilt { refusal, party: None })
}

/// The empty message of the earlier form has no block, and no share a byte.
#[test]
fn no_block() {
    let mut random = Random::new(61);
    for scheme in schemes() {
        for many in scheme.n - scheme.r..=scheme.n {
            let call = RebuildCall::drawn(&mut random, &scheme, &[], many);
            as_expected(&call, &Ok((0, Vec::new())), &mut random);
            as_expected(&call.with_held(vec![0]), &refused(9), &mut random);
            as_expected(&RebuildCall { out: 1, ..call }, &refused(10), &mut random);
        }
    }
}

/// As many blocks as the longest message has, and one more; and as many again, if they were counted modulo 2^16.
#[test]
fn the_most_blocks() {
    let mut random = Random::new(62);
    let in_blocks_of_one_byte = accepted([(2, 0, 1, &[2]), (4, 2, 1, &[2]), (16, 8, 7, &[8])]);
    for scheme in [&[Scheme::default(), Scheme::former_default()], &in_blocks_of_one_byte[..]].concat() {
        let shares = shares(&mut random, Form::Padded, &scheme, MAX_MESSAGE);
        let most = Form::Padded.blocks(MAX_MESSAGE, scheme.m);
        for many in [scheme.n - scheme.r, scheme.n] {
            let call = RebuildCall::drawn(&mut random, &scheme, &shares, many);
            as_split(&call, &shares, &mut random);
            assert_eq!(rebuild(&call, &mut random), Ok(0));
            for blocks in [most + 1, most + (1 << 16)] {
                let out = blocks * scheme.b;
                let call = RebuildCall { out, shares: vec![0; many as usize * out], ..call.clone() };
                assert_eq!(rebuild(&call, &mut random), refused(9), "{blocks} blocks, {scheme:?}");
            }
        }
    }
}

/// Damages the share at a place of the list.
type Damage = fn(&mut RebuildCall, usize, &mut Random);

/// One byte, some, all, and every row of one block.
const DAMAGES: [Damage; 4] = [
    |call, share, random| call.damage(share, random.below(call.out), random),
    |call, share, random| call.damage_share(share, random),
    |call, share, random| (0..call.out).for_each(|place| call.damage(share, place, random)),
    |call, share, random| {
        let blocks = call.out / call.scheme.b;
        let block = random.below(blocks);
        (0..call.scheme.b).for_each(|row| call.damage(share, row * blocks + block, random));
    },
];

/// A wrong share among n - r goes unnoticed: its own party's comes out as it is lent, and any other's as another one.
fn unnoticed(call: &RebuildCall, wrong: u8, shares: &[u8]) {
    let call = call.with_held(share_of(&call.scheme, shares, call.party).to_vec());
    let mut out = vec![0; call.out];
    let differing = calls::rebuild(&call, &call.shares, &call.held, &mut out).expect("an accepted call");
    assert!((differing > 0) == (call.party == wrong || !call.parties.contains(&call.party)), "{call:?}");
}

/// Of n - r + 1 shares a wrong one is noticed, and of more it is named, at every place of the list.
#[test]
fn one_wrong_share() {
    let mut random = Random::new(63);
    let mut by_spare = [0; 3];
    split_messages(&mut random, &[1, 3], |right, shares, random| {
        if right.out == 0 {
            return;
        }
        for (place, &wrong) in right.parties.iter().enumerate() {
            let mut call = right.clone();
            DAMAGES[random.below(DAMAGES.len())](&mut call, place, random);
            match call.spare() {
                0 => unnoticed(&call, wrong, shares),
                1 => as_expected(&call, &disagreement(None), random),
                _ => as_expected(&call, &disagreement(Some(wrong)), random),
            }
            by_spare[call.spare().min(2)] += 1;
        }
    });
    let [unnoticed, noticed, named] = by_spare;
    println!("{unnoticed} wrong shares went unnoticed, {noticed} were noticed, and {named} named");
    assert!(noticed > 500 && named > 500);
}

/// One wrong byte, at every place of every share of so many blocks. How many there are.
fn every_byte_of(random: &mut Random, scheme: &Scheme, blocks: usize) -> usize {
    let (shares, mut bytes) = (shares(random, Form::Padded, scheme, blocks * scheme.m - 1), 0);
    for spare in 1..=2 {
        let right = RebuildCall::drawn(random, scheme, &shares, scheme.n - scheme.r + spare);
        for (share, place) in (0..right.parties.len()).flat_map(|share| (0..right.out).map(move |i| (share, i))) {
            let mut call = right.clone();
            call.damage(share, place, random);
            let named = Some(call.parties[share]).filter(|_| spare == 2);
            as_expected(&call, &disagreement(named), random);
            bytes += 1;
        }
    }
    bytes
}

/// In all schemes with short blocks, and across the end of a batch of 64 blocks.
#[test]
fn every_byte() {
    let mut random = Random::new(64);
    let mut bytes = every_byte_of(&mut random, &Scheme::default(), 66);
    for scheme in schemes().iter().filter(|scheme| scheme.m <= 60 && scheme.r >= 2) {
        bytes += every_byte_of(&mut random, scheme, 3);
    }
    println!("{bytes} bytes");
}

/// For more equations than these the other implementation takes long.
fn has_few_equations(scheme: &Scheme) -> bool {
    scheme.n as usize * scheme.b <= 320
}

/// Whichever two are wrong, with n - r right ones left. Where there are no more than these, the two may fit together by
/// chance, and a right one is named then: the other implementation tells. With more, nobody is named.
#[test]
fn two_wrong_shares() {
    let (mut random, mut pairs) = (Random::new(65), 0);
    for scheme in schemes().iter().filter(|scheme| scheme.r >= 2) {
        let shares = shares(&mut random, Form::Earlier, scheme, 2 * scheme.m);
        for many in scheme.n - scheme.r + 2..=scheme.n {
            let right = RebuildCall::drawn(&mut random, scheme, &shares, many);
            for (one, other) in (0..many as usize).flat_map(|one| (0..one).map(move |other| (one, other))) {
                let mut call = right.clone();
                for place in [one, other] {
                    DAMAGES[random.below(DAMAGES.len())](&mut call, place, &mut random);
                }
                if call.spare() > 2 {
                    as_expected(&call, &disagreement(None), &mut random);
                }
                let answer = if has_few_equations(scheme) {
                    rebuild(&call, &mut random)
                } else {
                    calls::rebuild(&call, &call.shares, &call.held, &mut vec![0; call.out])
                };
                assert_eq!(answer.map_err(|no| no.refusal), Err(18), "{call:?}");
                pairs += 1;
            }
        }
    }
    println!("{pairs} pairs");
}

/// In blocks of one byte, with one block, a pair in a hundred or so fits together.
#[test]
fn two_wrong_shares_that_fit_by_chance() {
    let (mut random, mut named) = (Random::new(68), 0);
    for scheme in accepted([(4, 2, 1, &[2]), (6, 2, 3, &[4])]) {
        for _ in 0..2000 {
            let shares = shares(&mut random, Form::Earlier, &scheme, 1);
            let mut call = RebuildCall::drawn(&mut random, &scheme, &shares, scheme.n);
            let first = random.below(scheme.n as usize - 1);
            [first, first + 1].into_iter().for_each(|place| call.damage(place, 0, &mut random));
            let refused = rebuild(&call, &mut random).expect_err("shares that do not agree");
            assert!(refused.party.is_none_or(|party| ![first, first + 1].contains(&(party as usize - 1))), "{call:?}");
            named += refused.party.is_some() as usize;
        }
    }
    println!("a right one was named {named} times of 4000");
    assert!(named > 10);
}

/// All parties of a list but the innocent one hold shares that fit together, n - r - 1 of them their own: with one wrong
/// share these are n - r, and the other wrong ones are rebuilt from them.
fn made_to_fit(scheme: &Scheme, shares: &[u8], list: &[u8], innocent: u8, random: &mut Random) -> RebuildCall {
    let (mut all, share) = (shares.to_vec(), shares.len() / scheme.n as usize);
    let mut wrong: Vec<u8> = list.iter().copied().filter(|&party| party != innocent).collect();
    wrong.rotate_left(random.below(list.len() - 1));
    let mut fitting = wrong.split_off(list.len() - (scheme.n - scheme.r) as usize);
    fitting.push(wrong[0]);
    fitting.sort();
    for &party in &wrong {
        let call = RebuildCall::new(scheme, &all, fitting.clone(), party);
        let out = &mut all[(party as usize - 1) * share..][..share];
        if party == wrong[0] {
            out.copy_from_slice(&changed(random, out, share));
        } else {
            calls::rebuild(&call, &call.shares, &call.held, out).expect("an accepted call");
        }
    }
    RebuildCall::new(scheme, &all, list.to_vec(), innocent)
}

/// As many wrong shares as are lent above n - r have a right one named, whichever it is, if they were made for it.
#[test]
fn wrong_shares_that_were_made_to_fit() {
    let (mut random, mut calls) = (Random::new(69), 0);
    for scheme in schemes().iter().filter(|scheme| scheme.r >= 2) {
        let shares = shares(&mut random, Form::Padded, scheme, 2 * scheme.m);
        for many in scheme.n - scheme.r + 2..=scheme.n {
            let list = RebuildCall::drawn(&mut random, scheme, &shares, many).parties;
            for &innocent in &list {
                let call = made_to_fit(scheme, &shares, &list, innocent, &mut random);
                as_expected(&call, &disagreement(Some(innocent)), &mut random);
                if has_few_equations(scheme) {
                    assert_eq!(rebuild(&call, &mut random).map_err(|no| no.party), Err(Some(innocent)));
                }
                calls += 1;
            }
        }
    }
    println!("{calls} calls");
}

/// Which message is the right one nobody can tell: the odd share is named, also where all others are those of another.
#[test]
fn shares_of_two_messages() {
    let mut random = Random::new(66);
    for scheme in schemes().iter().filter(|scheme| scheme.r >= 2) {
        let [a, b] = [0, 1].map(|_| shares(&mut random, Form::Padded, scheme, 2 * scheme.m + 1));
        let call = RebuildCall::drawn(&mut random, scheme, &a, scheme.n);
        for from_b in 1..scheme.n {
            let mut mixed = call.clone();
            mixed.shares[..from_b as usize * call.out].copy_from_slice(&b[..from_b as usize * call.out]);
            let named = match from_b {
                1 => Some(1),
                _ if from_b == scheme.n - 1 => Some(scheme.n),
                _ => None,
            };
            as_expected(&mixed, &disagreement(named), &mut random);
        }
    }
}

/// Leaves the shares as they are, or makes some of them others: wrong ones, drawn ones, or those of another message.
fn damage(call: &mut RebuildCall, others: &[u8], random: &mut Random) {
    let many = call.parties.len();
    match random.below(8) {
        _ if call.out == 0 => {}
        0 | 1 => {}
        kind @ 2..=5 => {
            for _ in 0..if kind == 5 { 2 } else { 1 } {
                DAMAGES[random.below(DAMAGES.len())](call, random.below(many), random);
            }
        }
        6 => call.shares = random.bytes(call.shares.len()),
        _ => {
            let (from, end) = (random.below(many), random.below(many + 1));
            let others = RebuildCall::new(&call.scheme, others, call.parties.clone(), 1).shares;
            let end = end.max(from) * call.out;
            call.shares[from * call.out..end].copy_from_slice(&others[from * call.out..end]);
        }
    }
}

#[test]
fn drawn_calls() {
    let mut random = Random::new(67);
    let (mut accepted, mut noticed, mut named) = (0, 0, 0);
    for case in 0..10_000 {
        let scheme = if case % 10 == 0 { Scheme::default() } else { Scheme::drawn(&mut random, 24) };
        // The other implementation takes long for many equations.
        if scheme.n as usize * scheme.b > 100 {
            continue;
        }
        let (form, length) = (FORMS[case % 2], random.below(3 * scheme.m));
        let [shares, others] = [0, 1].map(|_| shares(&mut random, form, &scheme, length));
        let many = scheme.n - random.below(scheme.r as usize + 1) as u8;
        let mut call = RebuildCall::drawn(&mut random, &scheme, &shares, many);
        damage(&mut call, &others, &mut random);
        if random.below(2) == 0 {
            let (many, share) = (random.below(call.out + 1), share_of(&scheme, &shares, call.party));
            call = call.with_held(changed(&mut random, share, many));
        }
        match rebuild(&call, &mut random) {
            Ok(_) => accepted += 1,
            Err(NotRebuilt { refusal: 18, party }) => *(if party.is_some() { &mut named } else { &mut noticed }) += 1,
            Err(other) => panic!("{other:?}, {call:?}"),
        }
    }
    println!("{accepted} shares rebuilt, {noticed} disagreements without and {named} with a party named");
    assert!(accepted > 1000 && noticed > 500 && named > 500);
}
