//! Refusals of the call that rebuilds a share: each alone, and every two and three at once. The first in the order of the
//! rules is the answer, and nothing is written.

use comparison::cases::faults::{choices, nearby, nearby_byte, of_the_scheme};
use comparison::cases::rebuild::{shares, RebuildCall};
use comparison::cases::{Form, Scheme, FORMS};
use comparison::compare::rebuild::rebuild;
use comparison::random::Random;
use gilunavoi::limits::MAX_MESSAGE;
use gilunavoi::raw::NotRebuilt;

/// The refusal that a change of an accepted call leads to, and the change.
type Fault = (u64, fn(&mut RebuildCall));

/// Parties that do not rise in 1 to n, whatever their number, and one to rebuild that is none of them.
const PARTIES: [Fault; 11] = [
    (7, |c| at_least_two(c).swap(0, 1)),
    (7, |c| at_least_two(c).reverse()),
    (7, |c| at_least_two(c).copy_within(..1, 1)),
    (7, |c| at_least_two(c)[0] = 0),
    (7, |c| *at_least_two(c).last_mut().unwrap() = c.scheme.n + 1),
    (7, |c| *at_least_two(c).last_mut().unwrap() = 255),
    (7, |c| c.parties = (0..=255).collect()),
    // Its length is what it was modulo 256.
    (7, |c| c.parties.resize(c.parties.len() + 256, 1)),
    (7, |c| c.party = 0),
    (7, |c| c.party = c.scheme.n + 1),
    (7, |c| c.party = 255),
];

/// The list, which another fault may have cut short.
fn at_least_two(call: &mut RebuildCall) -> &mut Vec<u8> {
    if call.parties.len() < 2 {
        call.parties = vec![1, 2];
    }
    &mut call.parties
}

/// Too few shares, also where they have as many bytes as enough of them.
const NUMBER: [Fault; 4] = [
    (17, |c| c.parties.clear()),
    (17, |c| c.parties.truncate(1)),
    (17, |c| c.parties.truncate((c.scheme.n - c.scheme.r - 1) as usize)),
    (17, |c| {
        let share = share(c);
        c.parties.truncate((c.scheme.n - c.scheme.r - 1) as usize);
        c.shares.truncate(c.parties.len() * share);
    }),
];

/// The length of a share, whatever the output's is.
fn share(call: &RebuildCall) -> usize {
    call.shares.len() / call.parties.len()
}

/// Shares of no whole number of blocks, or of too many, and held copies of another length.
const LENGTHS: [Fault; 8] = [
    (9, |c| c.shares.push(7)),
    (9, |c| c.shares.truncate(c.shares.len() - 1)),
    (9, |c| c.shares.resize(c.shares.len() + c.scheme.b, 7)),
    (9, |c| c.shares.resize((MAX_MESSAGE / c.scheme.m + 2) * c.scheme.b * c.parties.len(), 7)),
    (9, |c| c.held.resize(share(c) + 1, 7)),
    (9, |c| c.held.resize(share(c) - 1, 7)),
    (9, |c| c.held.resize(share(c) + c.scheme.b, 7)),
    (9, |c| c.held.resize(share(c) + 256, 7)),
];

const OUTPUTS: [Fault; 4] =
    [(10, |c| c.out += 1), (10, |c| c.out -= 1), (10, |c| c.out = 0), (10, |c| c.out += c.scheme.b)];

/// The first byte of the first share, the last of the last one, and both.
const DISAGREEMENTS: [Fault; 3] = [
    (18, |c| c.shares[0] ^= 1),
    (18, |c| *c.shares.last_mut().unwrap() ^= 128),
    (18, |c| {
        c.shares[0] ^= 5;
        *c.shares.last_mut().unwrap() ^= 5;
    }),
];

#[derive(Clone, Copy)]
enum Change {
    Scheme(fn(&mut Scheme)),
    Call(fn(&mut RebuildCall)),
}

impl Change {
    fn make(self, call: &mut RebuildCall) {
        match self {
            Change::Scheme(change) => change(&mut call.scheme),
            Change::Call(change) => change(call),
        }
    }
}

/// All faults, in the order in which the rules look for them.
fn faults() -> Vec<(u64, Change)> {
    let of_the_call: [&[Fault]; 5] = [&PARTIES, &NUMBER, &LENGTHS, &OUTPUTS, &DISAGREEMENTS];
    let scheme = of_the_scheme().into_iter().map(|(number, change)| (number, Change::Scheme(change)));
    let call = of_the_call.into_iter().flatten().map(|&(number, change)| (number, Change::Call(change)));
    scheme.chain(call).collect()
}

/// Accepted calls with shares above n - r, one and more, so that a wrong one is noticed: of several rows a block or several
/// blocks, so that a length can be wrong by less than a share; with a held copy and without one.
fn accepted_calls(random: &mut Random) -> Vec<RebuildCall> {
    let mut calls = Vec::new();
    while calls.len() < 12 {
        let scheme = if calls.len() < 4 { Scheme::default() } else { Scheme::drawn(random, 24) };
        let is_small = scheme.n as usize * scheme.b <= 60;
        if scheme.r < 2 || scheme.b < 2 || !is_small {
            continue;
        }
        let (form, length) = (FORMS[calls.len() % 2], 1 + random.below(2 * scheme.m));
        let shares = shares(random, form, &scheme, length);
        let many = scheme.n - scheme.r + 1 + (calls.len() / 2 % 2) as u8;
        let call = RebuildCall::drawn(random, &scheme, &shares, many);
        let held = if random.below(2) == 0 { random.bytes(call.out) } else { Vec::new() };
        calls.push(call.with_held(held));
    }
    calls
}

/// Every choice of faults, put into accepted calls.
#[test]
fn all_choices_of_faults() {
    let mut random = Random::new(68);
    let choices = choices(&faults());
    let (mut calls, mut default_forms, mut named) = (0, 0, 0);
    for accepted in accepted_calls(&mut random) {
        assert!(rebuild(&accepted, &mut random).is_ok());
        for choice in &choices {
            let mut call = accepted.clone();
            // Last first, since a fault wants all that is looked at before it as it was.
            choice.iter().rev().for_each(|(_, change)| change.make(&mut call));
            let NotRebuilt { refusal, party } = rebuild(&call, &mut random).expect_err("a refusal");
            let numbers: Vec<u64> = choice.iter().map(|fault| fault.0).collect();
            assert_eq!(refusal, numbers[0], "{numbers:?} {call:?}");
            calls += 1;
            default_forms += call.scheme.is_default() as usize;
            named += party.is_some() as usize;
        }
    }
    println!("{} choices of faults, {calls} calls, {default_forms} of them without a scheme too", choices.len());
    println!("{named} of them named a party");
    assert!(choices.len() > 5000 && named > 10);
}

fn refusal_of(call: &RebuildCall, random: &mut Random) -> Option<u64> {
    rebuild(call, random).err().map(|not_rebuilt| not_rebuilt.refusal)
}

/// What is no refusal here: a number of parties that is no count, and bytes that end in no padding.
#[test]
fn what_is_not_refused() {
    let mut random = Random::new(69);
    let scheme = Scheme::new(7, 4, 1, vec![7, 4, 3]).expect("an accepted scheme");
    let shares = shares(&mut random, Form::Earlier, &scheme, 5 * scheme.m);
    for many in 3..=7 {
        let mut call = RebuildCall::drawn(&mut random, &scheme, &shares, many);
        assert_eq!(refusal_of(&call, &mut random), None);
        if many == 3 {
            call.shares = random.bytes(call.shares.len());
            assert_eq!(refusal_of(&call, &mut random), None);
        }
    }
}

/// A change that may be a fault or not.
fn damage(call: &mut RebuildCall, random: &mut Random) {
    let (scheme, parties) = (&mut call.scheme, &mut call.parties);
    match random.below(13) {
        0 => scheme.n = nearby_byte(random, scheme.n),
        1 => scheme.r = nearby_byte(random, scheme.r),
        2 => scheme.z = nearby_byte(random, scheme.z),
        3 => scheme.counts.push(random.byte() % 17),
        4 => scheme.counts.truncate(1),
        5 => parties.push(random.byte() % 18),
        6 => parties[0] = nearby_byte(random, parties[0]),
        7 => drop(parties.pop()),
        8 => call.party = nearby_byte(random, call.party),
        9 => call.shares.resize(nearby(random, call.shares.len()), 7),
        10 => call.held.resize(nearby(random, call.held.len()), 7),
        11 => call.out = nearby(random, call.out),
        _ => call.shares.iter_mut().take(1).for_each(|byte| *byte ^= 1),
    }
}

#[test]
fn drawn_damage() {
    let mut random = Random::new(70);
    let mut outcomes = [0; 19];
    for case in 0..20_000 {
        let scheme = if case % 4 == 0 { Scheme::default() } else { Scheme::drawn(&mut random, 6) };
        let length = random.below(2 * scheme.m + 1);
        let shares = shares(&mut random, FORMS[case % 2], &scheme, length);
        let many = scheme.n - random.below(scheme.r as usize + 1) as u8;
        let mut call = RebuildCall::drawn(&mut random, &scheme, &shares, many);
        if random.below(2) == 0 {
            call.held = random.bytes(call.out);
        }
        for _ in 0..1 + random.below(3) {
            damage(&mut call, &mut random);
        }
        outcomes[refusal_of(&call, &mut random).unwrap_or(0) as usize] += 1;
    }
    println!("20000 calls, by refusal: {outcomes:?}");
    assert!([0, 1, 2, 3, 7, 9, 10, 17, 18].into_iter().all(|refusal| outcomes[refusal] > 100));
}
