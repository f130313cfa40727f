//! Refusals: each alone, and every two and three at once, for every call in both forms of message. The first in the order
//! of the rules' table is the answer, and nothing is written.

use comparison::cases::faults::{choices, nearby, nearby_byte, of_the_scheme};
use comparison::cases::{Call, Form, Scheme, FORMS};
use comparison::compare::{self, pool, range, Compare};
use comparison::random::Random;
use gilunavoi::limits::MAX_MESSAGE;

/// The refusal that a change of an accepted call leads to, and the change.
type Fault = (u64, fn(&mut Call));

/// Lengths of a message that is there. Some would pass modulo 2^16.
const MESSAGES: [Fault; 4] = [
    (5, |c| c.length = MAX_MESSAGE + 1),
    (5, |c| c.length = MAX_MESSAGE + c.scheme.m),
    (5, |c| c.length = 1 << 16),
    (5, |c| c.length += 1 << 16),
];

/// Lengths that are only told. Some would pass modulo 2^32, or if the blocks were counted modulo 2^64.
const LENGTHS: [Fault; 7] = [
    (5, |c| c.length = MAX_MESSAGE + 1),
    (5, |c| c.length += 1 << 16),
    (5, |c| c.length += 1 << 32),
    (5, |c| c.length += 1 << 63),
    (5, |c| c.length = (usize::MAX - c.scheme.m).saturating_add(2)),
    (5, |c| c.length = usize::MAX - 1),
    (5, |c| c.length = usize::MAX),
];

/// For the prefix: numbers that are no count.
const COUNTS: [Fault; 10] = [
    (6, |c| c.d = 0),
    (6, |c| c.d = (c.scheme.n - c.scheme.r - 1) as usize),
    (6, |c| c.d = c.scheme.z as usize),
    (6, |c| c.d = c.scheme.n as usize + 1),
    (6, |c| c.d += 256),
    (6, |c| c.d += 1 << 32),
    (6, |c| c.d += 1 << 63),
    (6, |c| c.d = c.d.wrapping_neg()),
    (6, |c| c.d = usize::MAX - 1),
    (6, |c| c.d = usize::MAX),
];

/// For the readers: lists that have not as many parties as a count, and lists of parties that do not rise in 1 to n.
const PARTIES: [Fault; 12] = [
    (6, |c| c.parties.clear()),
    (6, |c| c.parties = (1..c.scheme.n - c.scheme.r).collect()),
    (6, |c| c.parties = (1..=c.scheme.z).collect()),
    (6, |c| c.parties = (1..=c.scheme.n + 1).collect()),
    (6, |c| c.parties.resize(c.parties.len() + 256, 1)),
    (6, |c| c.parties = (0..=255).collect()),
    (7, |c| c.parties.swap(0, 1)),
    (7, |c| c.parties.reverse()),
    (7, |c| c.parties[1] = c.parties[0]),
    (7, |c| c.parties[0] = 0),
    (7, |c| *c.parties.last_mut().unwrap() = c.scheme.n + 1),
    (7, |c| *c.parties.last_mut().unwrap() = 255),
];

/// Ranges that end after the message, by a byte, empty or far away. Some would pass modulo 2^32, or if the sum were taken
/// modulo 2^64.
const RANGES: [Fault; 12] = [
    (15, |c| c.range_length = c.length - c.start + 1),
    (15, |c| c.start = c.length - c.range_length + 1),
    (15, |c| (c.start, c.range_length) = (c.length + 1, 0)),
    (15, |c| c.start += 1 << 32),
    (15, |c| c.range_length += 1 << 32),
    (15, |c| c.start += 1 << 63),
    (15, |c| c.range_length += 1 << 63),
    (15, |c| c.start = (usize::MAX - c.range_length).saturating_add(1)),
    (15, |c| c.range_length = (usize::MAX - c.start).saturating_add(1)),
    (15, |c| (c.start, c.range_length) = (usize::MAX, 1)),
    (15, |c| (c.start, c.range_length) = (1, usize::MAX)),
    (15, |c| (c.start, c.range_length) = (usize::MAX, usize::MAX)),
];

fn one_less(length: usize) -> usize {
    length.checked_sub(1).unwrap_or(256)
}

const KEYS: [Fault; 4] = [
    (8, |c| c.keys += 1),
    (8, |c| c.keys = one_less(c.keys)),
    (8, |c| c.keys += c.scheme.z as usize * c.scheme.b),
    (8, |c| c.keys = if c.keys == 0 { 1 } else { 0 }),
];

/// Pools of another length than their records say, and records after which too few bytes are left, or that are past the end.
/// Some would pass modulo 2^32, or if sums were taken modulo 2^64.
const POOLS: [Fault; 14] = [
    (16, |c| c.pool += 1),
    (16, |c| c.pool = one_less(c.pool)),
    (16, |c| c.pool_length += 1),
    (16, |c| c.pool_length = one_less(c.pool_length)),
    (16, |c| c.pool_length = if c.pool_length == 0 { 1 } else { 0 }),
    (16, |c| c.pool_length += 1 << 32),
    (16, |c| c.pool_length = usize::MAX),
    (16, |c| c.pool_position = c.pool - c.keys + 1),
    (16, |c| c.pool_position = c.pool + 1),
    (16, |c| c.pool_position += 1 << 32),
    (16, |c| c.pool_position += 1 << 63),
    (16, |c| c.pool_position = (usize::MAX - c.keys).saturating_add(1)),
    (16, |c| c.pool_position = usize::MAX),
    (16, |c| (c.pool_length, c.pool_position) = (usize::MAX, usize::MAX - c.keys)),
];

const SHARE: [Fault; 4] = [
    (9, |c| c.share += 1),
    (9, |c| c.share = one_less(c.share)),
    (9, |c| c.share += c.scheme.b),
    (9, |c| c.share = if c.share == 0 { 1 } else { 0 }),
];

const PREFIXES: [Fault; 4] = [
    (9, |c| c.prefixes += 1),
    (9, |c| c.prefixes = one_less(c.prefixes)),
    (9, |c| c.prefixes += c.d),
    (9, |c| c.prefixes = if c.prefixes == 0 { 1 } else { 0 }),
];

/// In the padded form: a length that is no whole number of blocks, or none where every length is one; no block; and one
/// block more than the longest message has.
const PADDED_SHARE: [Fault; 3] = [
    (9, |c| c.share = if c.scheme.b > 1 { c.share + 1 } else { 0 }),
    (9, |c| c.share = 0),
    (9, |c| c.share = (most_blocks(c) + 1) * c.scheme.b),
];

const PADDED_PREFIXES: [Fault; 4] = [
    (9, |c| c.prefixes += 1),
    (9, |c| c.prefixes -= 1),
    (9, |c| c.prefixes = 0),
    (9, |c| c.prefixes = (most_blocks(c) + 1) * (c.prefixes / Form::Padded.blocks(c.length, c.scheme.m))),
];

fn most_blocks(call: &Call) -> usize {
    Form::Padded.blocks(MAX_MESSAGE, call.scheme.m)
}

const OUTPUTS: [Fault; 3] = [
    (10, |c| (c.shares, c.message, c.range) = (c.shares + 1, c.message + 1, c.range + 1)),
    (10, |c| (c.shares, c.message, c.range) = (one_less(c.shares), one_less(c.message), one_less(c.range))),
    (10, |c| (c.shares, c.message, c.range) = (c.shares + c.scheme.b, c.message + c.scheme.m, c.range + c.scheme.m)),
];

/// In the padded form also: room for the message alone, and for one block less than there are.
const PADDED_OUTPUTS: [Fault; 2] = [(10, |c| c.message = c.length), (10, |c| c.message -= c.scheme.m)];

/// Another byte where 128 has to stand, and a last block of zeros, after one that ends with 128 if there is one.
const ENDINGS: [Fault; 3] = [
    (11, |c| c.end = Some((c.length, 127))),
    (11, |c| c.end = Some((c.length, 1))),
    (11, |c| c.end = Some((c.message - c.scheme.m).checked_sub(1).map_or((0, 0), |place| (place, 128)))),
];

#[derive(Clone, Copy)]
enum Change {
    Scheme(fn(&mut Scheme)),
    Call(fn(&mut Call)),
}

/// The order in which the rules look for refusals.
const ORDER: [u64; 13] = [1, 2, 3, 4, 5, 6, 7, 8, 16, 15, 9, 10, 11];

/// Refusals 1 to 4, and then those of the call, in their order.
fn faults(of_the_call: &[&[Fault]]) -> Vec<(u64, Change)> {
    let scheme = of_the_scheme().into_iter();
    let mut faults: Vec<_> = scheme.map(|(number, change)| (number, Change::Scheme(change))).collect();
    for part in of_the_call {
        faults.extend(part.iter().map(|&(number, change)| (number, Change::Call(change))));
    }
    assert!(faults.is_sorted_by_key(|&(number, _)| ORDER.iter().position(|&next| next == number)));
    faults
}

/// Accepted calls: the default scheme with messages of some lengths, and drawn schemes. Range and pool are drawn, too.
fn accepted_calls(random: &mut Random, form: Form) -> Vec<Call> {
    let mut calls: Vec<Call> = [0, 1, 100].map(|length| Call::drawn(random, form, &Scheme::default(), length)).into();
    for _ in 0..5 {
        let scheme = Scheme::drawn(random, 60);
        let length = random.below(2 * scheme.m + 1);
        calls.push(Call::drawn(random, form, &scheme, length));
    }
    calls.iter().map(|call| call.with_drawn_range(random).with_drawn_pool(random)).collect()
}

/// Puts every choice of faults into accepted calls.
fn refused(seed: u64, form: Form, compare: Compare, of_the_call: &[&[Fault]]) {
    let mut random = Random::new(seed);
    let choices = choices(&faults(of_the_call));
    let (mut calls, mut default_forms) = (0, 0);
    for accepted in accepted_calls(&mut random, form) {
        assert_eq!(compare(&accepted, &mut random), Ok(()));
        for choice in &choices {
            let mut call = accepted.clone();
            // Last first, since a fault wants all that is looked at before it as it was.
            for (_, change) in choice.iter().rev() {
                match change {
                    Change::Scheme(change) => change(&mut call.scheme),
                    Change::Call(change) => change(&mut call),
                }
            }
            let numbers: Vec<u64> = choice.iter().map(|fault| fault.0).collect();
            assert_eq!(compare(&call, &mut random), Err(numbers[0]), "{numbers:?} {call:?}");
            calls += 1;
            default_forms += call.scheme.is_default() as usize;
        }
    }
    println!("{} choices of faults, {calls} calls, {default_forms} of them without a scheme too", choices.len());
    assert!(choices.len() > 800);
}

#[test]
fn of_the_check() {
    refused(16, Form::Earlier, |call, _| compare::check(&call.scheme), &[]);
}

#[test]
fn of_the_splitter() {
    refused(17, Form::Earlier, compare::split, &[&MESSAGES, &KEYS, &OUTPUTS]);
}

#[test]
fn of_the_padded_splitter() {
    refused(32, Form::Padded, compare::split, &[&MESSAGES, &KEYS, &OUTPUTS]);
}

#[test]
fn of_the_splitter_from_a_pool() {
    refused(57, Form::Earlier, pool::split, &[&MESSAGES, &POOLS, &OUTPUTS]);
}

#[test]
fn of_the_padded_splitter_from_a_pool() {
    refused(58, Form::Padded, pool::split, &[&MESSAGES, &POOLS, &OUTPUTS]);
}

#[test]
fn of_the_prefix() {
    refused(18, Form::Earlier, compare::prefix, &[&LENGTHS, &COUNTS, &SHARE]);
}

#[test]
fn of_the_padded_prefix() {
    refused(33, Form::Padded, compare::prefix, &[&COUNTS, &PADDED_SHARE]);
}

#[test]
fn of_the_basis() {
    refused(19, Form::Earlier, compare::basis, &[&PARTIES]);
}

#[test]
fn of_the_opener() {
    refused(20, Form::Earlier, compare::reconstruct, &[&LENGTHS, &PARTIES, &PREFIXES, &OUTPUTS]);
}

#[test]
fn of_the_opener_of_ranges() {
    let of_the_call: [&[Fault]; 5] = [&LENGTHS, &PARTIES, &RANGES, &PREFIXES, &OUTPUTS];
    refused(49, Form::Earlier, range::reconstruct, &of_the_call);
}

#[test]
fn of_the_padded_opener() {
    let of_the_call: [&[Fault]; 5] = [&PARTIES, &PADDED_PREFIXES, &OUTPUTS, &PADDED_OUTPUTS, &ENDINGS];
    refused(34, Form::Padded, compare::reconstruct, &of_the_call);
}

/// A change that may be a fault or not.
fn damage(call: &mut Call, random: &mut Random) {
    let scheme = &mut call.scheme;
    let parties = &mut call.parties;
    match random.below(20) {
        0 => scheme.n = nearby_byte(random, scheme.n),
        1 => scheme.r = nearby_byte(random, scheme.r),
        2 => scheme.z = nearby_byte(random, scheme.z),
        3 => scheme.counts.push(random.byte() % 17),
        4 => scheme.counts.insert(0, random.byte() % 17),
        5 => scheme.counts.truncate(1),
        6 => call.length = nearby(random, call.length),
        7 => call.d = nearby(random, call.d),
        8 => parties.push(random.byte() % 18),
        9 => parties[0] = nearby_byte(random, parties[0]),
        10 => call.keys = nearby(random, call.keys),
        11 => call.share = nearby(random, call.share),
        12 => call.prefixes = nearby(random, call.prefixes),
        13 => call.end = call.end.map(|(place, byte)| (nearby(random, place), nearby_byte(random, byte))),
        14 => call.start = nearby(random, call.start),
        15 => call.range_length = nearby(random, call.range_length),
        16 => call.pool = nearby(random, call.pool),
        17 => call.pool_length = nearby(random, call.pool_length),
        18 => call.pool_position = nearby(random, call.pool_position),
        _ => {
            for output in [&mut call.shares, &mut call.message, &mut call.range] {
                *output = nearby(random, *output);
            }
        }
    }
}

#[test]
fn drawn_damage() {
    let mut random = Random::new(21);
    let operations: [Compare; 6] =
        [compare::split, pool::split, compare::prefix, compare::basis, compare::reconstruct, range::reconstruct];
    for form in FORMS {
        // There is no call for a range in the padded form.
        let operations = &operations[..if form == Form::Padded { 5 } else { 6 }];
        let mut outcomes = vec![[0; 17]; operations.len()];
        for case in 0..30_000 {
            let scheme = if case % 4 == 0 { Scheme::default() } else { Scheme::drawn(&mut random, 24) };
            let length = random.below(3 * scheme.m + 1);
            let mut call = Call::drawn(&mut random, form, &scheme, length).with_drawn_range(&mut random);
            call = call.with_drawn_pool(&mut random);
            for _ in 0..1 + random.below(3) {
                damage(&mut call, &mut random);
            }
            for (operation, outcomes) in operations.iter().zip(&mut outcomes) {
                outcomes[operation(&call, &mut random).err().unwrap_or(0) as usize] += 1;
            }
        }
        println!("30000 calls each, {form:?}, by refusal: {outcomes:?}");
        assert!(outcomes.iter().all(|outcomes| outcomes[0] > 3000 && outcomes[0] < 20_000));
    }
}
