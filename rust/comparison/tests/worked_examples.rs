//! The worked examples of the rules, on the proved library and on the other implementation: the two must not agree on
//! something else.

use comparison::reference;
use gilunavoi::limits::{FORMER_DEFAULT_COUNTS, FORMER_DEFAULT_N, FORMER_DEFAULT_R, FORMER_DEFAULT_Z};
use gilunavoi::raw;

/// Splits in the scheme n 3, r 1, z 1, counts 3 2.
fn split_as(padded: bool, message: &[u8], keys: &[u8], shares: usize) -> Vec<u8> {
    let split = if padded { raw::split_padded } else { raw::split };
    let expected = if padded { reference::split_padded } else { reference::split };
    let mut out = vec![0; shares];
    let answer = split(3, 1, 1, &[3, 2], message, keys, &mut out);
    assert_eq!(answer, Ok(shares as u64 / 3));
    assert_eq!(expected(3, 1, 1, &[3, 2], message, keys, shares), Ok(out.clone()));
    out
}

fn split(message: &[u8], keys: &[u8], shares: usize) -> Vec<u8> {
    split_as(false, message, keys, shares)
}

fn split_padded(message: &[u8], keys: &[u8], shares: usize) -> Vec<u8> {
    split_as(true, message, keys, shares)
}

/// Splits in the same scheme with keys from a pool of four bytes: all shares, and the record after the call, or as it was.
fn split_from_pool(
    padded: bool,
    record: (usize, usize),
    message: &[u8],
    shares: usize,
) -> (Result<Vec<u8>, u64>, (usize, usize)) {
    let split = if padded { raw::split_padded_from_pool } else { raw::split_from_pool };
    let expected = if padded { reference::pool::split_padded } else { reference::pool::split };
    let (bytes, mut out) = ([1, 2, 9, 4], vec![0; shares]);
    let mut pool = raw::KeyPool { length: record.0, position: record.1 };
    let answer = split(&mut pool, 3, 1, 1, &[3, 2], message, &bytes, &mut out);
    let after = (pool.length, pool.position);
    let expected = expected(record, 3, 1, 1, &[3, 2], message, &bytes, shares);
    assert_eq!(answer.map(|share| (share, after)), expected.clone().map(|(all, after)| (all.len() as u64 / 3, after)));
    let written = answer.map(|_| out);
    assert_eq!(written, expected.map(|(all, _)| all));
    (written, after)
}

/// Opens two bytes in the same scheme: the bytes used, and the message.
fn reconstruct(parties: &[u8], prefixes: &[u8]) -> (u64, Vec<u8>) {
    let mut out = vec![0; 2];
    let used = raw::reconstruct(3, 1, 1, &[3, 2], 2, parties, prefixes, &mut out).unwrap();
    assert_eq!(reference::reconstruct(3, 1, 1, &[3, 2], 2, parties, prefixes, 2), Ok((used, out.clone())));
    (used, out)
}

/// Opens a range of them: the bytes used, and the range.
fn reconstruct_range(start: usize, length: usize, parties: &[u8], prefixes: &[u8]) -> Result<(u64, Vec<u8>), u64> {
    let mut out = vec![0; length.min(2)];
    let expected = reference::range::reconstruct(3, 1, 1, &[3, 2], 2, start, length, parties, prefixes, out.len());
    let used = raw::reconstruct_range(3, 1, 1, &[3, 2], 2, start, length, parties, prefixes, &mut out);
    let answer = used.map(|used| (used, out));
    assert_eq!(answer, expected);
    answer
}

/// Opens padded blocks of two bytes: the bytes used, the length of the message, and the blocks.
fn reconstruct_padded(parties: &[u8], prefixes: &[u8], blocks: usize) -> ((u64, u64), Vec<u8>) {
    let mut out = vec![0; 2 * blocks];
    let answer = raw::reconstruct_padded(3, 1, 1, &[3, 2], parties, prefixes, &mut out).unwrap();
    let expected = reference::reconstruct_padded(3, 1, 1, &[3, 2], parties, prefixes, 2 * blocks);
    assert_eq!(expected, Ok((answer, out.clone())));
    (answer, out)
}

/// Rebuilds a share of two bytes, or of none where no shares are lent, with 2 parties enough: what was answered, and the
/// share, or two bytes as they were.
fn rebuild(n: u8, parties: &[u8], shares: &[u8], party: u8, held: &[u8]) -> (raw::Rebuilt, Vec<u8>) {
    let (r, counts) = (n - 2, [3, 2]);
    let mut out = vec![7; if shares.is_empty() { 0 } else { 2 }];
    let answer = raw::rebuild(n, r, 1, &counts, parties, shares, party, held, &mut out);
    let expected = reference::rebuild::rebuild(n, r, 1, &counts, parties, shares, party, held, out.len());
    let told = answer.map_err(|no| (no.refusal, no.party.unwrap_or(0)));
    assert_eq!(told.map(|differing| (differing, out.clone())), expected);
    (answer, out)
}

fn check(n: u8, r: u8, z: u8, counts: &[u8]) -> raw::Checked {
    let answer = raw::check(n, r, z, counts);
    assert_eq!(answer, reference::check(n, r, z, counts));
    answer
}

/// The same, and how many multiples of the first d - z were tried.
fn check_tried(n: u8, r: u8, z: u8, counts: &[u8]) -> raw::CheckedTried {
    let answer = raw::check_tried(n, r, z, counts);
    assert_eq!(answer, reference::check_tried(n, r, z, counts));
    assert_eq!(answer.0, check(n, r, z, counts));
    answer
}

#[test]
fn arithmetic() {
    for (a, b, product) in [(0x57, 0x83, 0xc1), (0x57, 0x13, 0xfe)] {
        assert_eq!([raw::mul(a, b), raw::mul_by_shifting(a, b), reference::mul(a, b)], [product; 3]);
    }
    assert_eq!([raw::inverse(2), reference::inverse(2)], [Some(0x8d); 2]);
    assert_eq!([raw::inverse(0), reference::inverse(0)], [None; 2]);
}

#[test]
fn shares_and_messages() {
    assert_eq!(split(&[5, 7], &[9, 4], 6), [11, 3, 31, 10, 29, 13]);
    assert_eq!(split(&[0, 0], &[31, 10], 6)[2..4], [31, 10]);
    assert_eq!(split(&[5, 7, 1], &[9, 4, 2, 6], 12)[..4], [11, 3, 3, 6]);
    assert_eq!(reconstruct(&[1, 2, 3], &[11, 31, 29]), (3, vec![5, 7]));
    assert_eq!(reconstruct(&[1, 3], &[11, 3, 29, 13]), (4, vec![5, 7]));
}

#[test]
fn keys_from_a_pool() {
    let shares = vec![11, 3, 31, 10, 29, 13];
    assert_eq!(split_from_pool(false, (4, 2), &[5, 7], 6), (Ok(shares), (4, 4)));
    assert_eq!(split_from_pool(false, (4, 4), &[], 0), (Ok(vec![]), (4, 4)));
    assert_eq!(split_from_pool(true, (4, 4), &[], 6), (Err(16), (4, 4)));
    for padded in [false, true] {
        assert_eq!(split_from_pool(padded, (4, 4), &[5], 6), (Err(16), (4, 4)));
    }
    for record in [(3, 2), (5, 2), (4, 5)] {
        assert_eq!(split_from_pool(false, record, &[], 0), (Err(16), record));
    }
    assert_eq!(split_from_pool(false, (4, 3), &[5, 7], 6), (Err(16), (4, 3)));
}

/// Two parties' row 4 + 7x comes first and has the second byte: the other row, which has both, may be anything. Three
/// parties send this one alone.
#[test]
fn ranges() {
    assert_eq!(reconstruct_range(1, 1, &[1, 3], &[0, 3, 0, 13]), Ok((2, vec![7])));
    assert_eq!(reconstruct_range(0, 1, &[1, 3], &[11, 3, 29, 13]), Ok((4, vec![5])));
    assert_eq!(reconstruct_range(0, 2, &[1, 3], &[11, 3, 29, 13]), Ok((4, vec![5, 7])));
    assert_eq!(reconstruct_range(1, 1, &[1, 2, 3], &[11, 31, 29]), Ok((3, vec![7])));
    assert_eq!(reconstruct_range(2, 0, &[1, 2, 3], &[0, 0, 0]), Ok((0, vec![])));
    for (start, length) in [(1, 2), (2, 1), (3, 0), (usize::MAX, 1), (usize::MAX, 3), (1, usize::MAX)] {
        assert_eq!(reconstruct_range(start, length, &[1, 2, 3], &[11, 31, 29]), Err(15));
    }
}

/// Of the message 5 7 under the keys 9 4, with three parties and with four.
#[test]
fn shares_rebuilt() {
    assert_eq!(rebuild(3, &[1, 2], &[11, 3, 31, 10], 3, &[]), (Ok(0), vec![29, 13]));
    assert_eq!(rebuild(3, &[1, 2], &[11, 3, 31, 10], 3, &[29, 12]), (Ok(1), vec![29, 13]));
    let refused = |refusal, party| (Err(raw::NotRebuilt { refusal, party }), vec![7, 7]);
    assert_eq!(rebuild(3, &[1, 2, 3], &[11, 2, 31, 10, 29, 13], 3, &[]), refused(18, None));

    let mut out = [0; 8];
    raw::split(4, 2, 1, &[3, 2], &[5, 7], &[9, 4], &mut out).unwrap();
    assert_eq!(out, [11, 3, 31, 10, 29, 13, 109, 24]);
    assert_eq!(rebuild(4, &[1, 2, 3, 4], &[11, 2, 31, 10, 29, 13, 109, 24], 2, &[]), refused(18, Some(1)));
    assert_eq!(rebuild(4, &[1, 2, 3, 4], &[11, 2, 31, 10, 29, 12, 109, 24], 2, &[]), refused(18, None));

    assert_eq!(rebuild(3, &[2, 3], &[], 1, &[]), (Ok(0), vec![]));
    assert_eq!(rebuild(3, &[], &[], 1, &[]), (Err(raw::NotRebuilt { refusal: 17, party: None }), vec![]));
}

/// Worked out by hand. Of one byte: the rows 9 + 5x + 128x² and 4 + 128x. A message that fills its blocks has one more,
/// and the empty one has one.
#[test]
fn padded_messages() {
    assert_eq!(split_padded(&[5], &[9, 4], 6), [140, 132, 53, 31, 176, 159]);
    assert_eq!(split_padded(&[5, 7], &[9, 4, 2, 6], 12)[..4], [11, 130, 3, 6]);
    assert_eq!(split_padded(&[], &[9, 4], 6)[..2], [137, 4]);
    assert_eq!(reconstruct_padded(&[1, 2, 3], &[140, 53, 176], 1), ((3, 1), vec![5, 128]));
    assert_eq!(reconstruct_padded(&[1, 3], &[140, 132, 176, 159], 1), ((4, 1), vec![5, 128]));
    // From 128 0 under the keys 0 0, and from 5 7 128 0 under the keys 0 0 0 0.
    assert_eq!(reconstruct_padded(&[1, 2], &[128, 0, 27, 0], 1), ((4, 0), vec![128, 0]));
    assert_eq!(reconstruct_padded(&[1, 2], &[2, 128, 7, 0, 22, 27, 14, 0], 2), ((8, 2), vec![5, 7, 128, 0]));
    // The prefixes of 5 7 in the earlier form.
    assert_eq!(raw::reconstruct_padded(3, 1, 1, &[3, 2], &[1, 2, 3], &[11, 31, 29], &mut [0; 2]), Err(11));
    assert_eq!(reference::reconstruct_padded(3, 1, 1, &[3, 2], &[1, 2, 3], &[11, 31, 29], 2), Err(11));
}

#[test]
fn schemes() {
    assert_eq!(check(3, 1, 1, &[3, 2]), Ok((2, 2)));
    assert_eq!(check(7, 4, 1, &[7, 4, 3]), Ok((6, 3)));
    assert_eq!(check(9, 3, 1, &[9, 8, 7, 6]), Ok((840, 168)));
    assert_eq!(check(10, 4, 1, &[10, 9, 8, 6]), Err(4));
    assert_eq!(check(2, 0, 1, &[2]), Ok((1, 1)));
    assert_eq!(check(2, 1, 1, &[2]), Err(2));
    assert_eq!(check(1, 0, 1, &[1]), Err(1));
    assert_eq!(check(17, 0, 1, &[17]), Err(1));
}

/// The first multiple that is tried is the first d - z itself, and the last one is m: they are m ÷ (first d - z).
#[test]
fn multiples_tried() {
    let default = Ok((6, 6));
    assert_eq!([raw::check_tried_default(), check_tried(5, 2, 2, &[5, 4, 3])], [(default, 2); 2]);
    assert_eq!(raw::check_default(), default);
    let (n, r, z) = (FORMER_DEFAULT_N, FORMER_DEFAULT_R, FORMER_DEFAULT_Z);
    assert_eq!(check_tried(n, r, z, &FORMER_DEFAULT_COUNTS), (Ok((12, 6)), 3));
    assert_eq!(check_tried(2, 0, 1, &[2]), (Ok((1, 1)), 1));
    // One count alone: m is its d - z, the first number that is tried.
    assert_eq!(check_tried(16, 1, 4, &[15]), (Ok((11, 1)), 1));
    // m is the limit itself.
    assert_eq!(check_tried(9, 3, 1, &[9, 8, 7, 6]), (Ok((840, 168)), 105));
    assert_eq!(check_tried(16, 8, 1, &[16, 9, 8]), (Ok((840, 120)), 56));
}

/// Where m is above the limit, every multiple up to the limit is tried, and none above it.
#[test]
fn multiples_tried_up_to_the_limit() {
    // 93 × 9 is 837, and 64 × 13 is 832.
    assert_eq!(check_tried(10, 4, 1, &[10, 9, 8, 6]), (Err(4), 93));
    assert_eq!(check_tried(14, 7, 1, &[14, 12, 7]), (Err(4), 64));
    // The limit itself is one: 70 × 12, 60 × 14 and 56 × 15.
    assert_eq!(check_tried(13, 5, 1, &[13, 12, 8]), (Err(4), 70));
    assert_eq!(check_tried(15, 5, 1, &[15, 12, 10]), (Err(4), 60));
    assert_eq!(check_tried(16, 4, 1, &[16, 14, 12]), (Err(4), 56));
}

/// Refusals 1 to 3 come before the search, also where m would be above the limit.
#[test]
fn nothing_tried() {
    for n in [1, 17] {
        assert_eq!(check_tried(n, 0, 1, &[n]), (Err(1), 0));
    }
    for (r, z) in [(4, 0), (9, 1), (255, 1)] {
        assert_eq!(check_tried(10, r, z, &[10, 9, 8, 6]), (Err(2), 0));
    }
    let nine_counts: Vec<u8> = (8..=16).rev().collect();
    for (n, r, counts) in [
        (10, 4, &[][..]),
        (10, 4, &[10, 9, 8, 7]),
        (9, 3, &[10, 9, 8, 6]),
        (10, 4, &[10, 8, 9, 6]),
        (16, 8, &nine_counts),
    ] {
        assert_eq!(check_tried(n, r, 1, counts), (Err(3), 0));
    }
}

/// In the default scheme it makes 2,731 blocks of 6 bytes in 6 rows.
#[test]
fn the_longest_message() {
    for (length, answer) in [(16384, Ok(2731 * 6)), (16385, Err(5))] {
        let mut out = vec![0; 2731 * 30];
        assert_eq!(raw::split_default(&vec![1; length], &[2; 2731 * 12], &mut out), answer);
        assert_eq!(raw::split_padded_default(&vec![1; length], &[2; 2731 * 12], &mut out), answer);
        assert_eq!(raw::prefix_default(length, 3, &[0; 2731 * 6]), answer);
    }
    for (blocks, answer) in [(0, Err(9)), (1, Ok(6)), (2731, Ok(2731 * 6)), (2732, Err(9))] {
        assert_eq!(raw::prefix_padded_default(3, &vec![0; blocks * 6]), answer);
    }
}

/// Shares of the longest message that were stored under the former default, where it makes 1,366 blocks of 12 bytes: their
/// prefixes are cut by naming it.
#[test]
fn the_longest_message_in_the_former_default() {
    let (n, r, z) = (FORMER_DEFAULT_N, FORMER_DEFAULT_R, FORMER_DEFAULT_Z);
    for (length, answer) in [(16384, Ok(1366 * 6)), (16385, Err(5))] {
        assert_eq!(raw::prefix(n, r, z, &FORMER_DEFAULT_COUNTS, length, 3, &[0; 1366 * 6]), answer);
    }
    for (blocks, answer) in [(0, Err(9)), (1, Ok(6)), (1366, Ok(1366 * 6)), (1367, Err(9))] {
        let share = vec![0; blocks * 6];
        assert_eq!(raw::prefix_padded(n, r, z, &FORMER_DEFAULT_COUNTS, 3, &share), answer);
    }
}
