//! Ranges of a message, which the opener reads from some of the rows: against the other implementation, the message that was
//! split and the whole opening, against rows counted by hand, and with damage in the rows that are not taken and in those
//! that are.

use comparison::cases::{self, accepted, all_schemes, lengths, parties, sets_of_parties, Call, Form, Scheme};
use comparison::compare::{self, range};
use comparison::random::Random;
use comparison::reference::range::{rows_in_order, rows_taken, Row};
use comparison::{calls, reference};
use gilunavoi::limits::{MAX_BLOCK, MAX_MESSAGE};

/// Those of other tests, and more: seven and eight colluding parties, as many as there may be besides the absent ones, one
/// count and eight, and the longest blocks in several shapes.
fn schemes() -> Vec<Scheme> {
    let others = accepted([
        (3, 1, 1, &[3, 2]),
        (10, 4, 2, &[10, 8, 6]),
        (7, 3, 3, &[6, 5, 4]),
        (16, 1, 4, &[15]),
        (12, 2, 7, &[12, 11, 10]),
        (16, 8, 7, &[16, 10, 8]),
        (16, 8, 1, &[16, 9, 8]),
        (9, 6, 1, &[9, 8, 7, 6, 5, 4, 3]),
        (15, 7, 7, &[15, 14, 13, 12, 11, 10, 9, 8]),
        (16, 7, 8, &[16, 15, 14, 13, 12, 11, 10, 9]),
    ]);
    [&cases::schemes()[..], &others].concat()
}

/// Ranges at both ends of the message, in its middle, and across the ends of a block and of a batch of 64; no byte, one, a
/// line, as many as a block has, one less, one more, and all.
fn ranges(m: usize, length: usize) -> Vec<(usize, usize)> {
    let mut ranges = Vec::new();
    for range_length in [0, 1, 80, m - 1, m, m + 1, length] {
        let last = length.saturating_sub(range_length);
        ranges.extend([0, m - 1, 64 * m - 1, length / 2, last].map(|start| (start, range_length)));
    }
    ranges.retain(|(start, range_length)| start + range_length <= length);
    ranges.sort();
    ranges.dedup();
    ranges
}

/// Prefixes of an accepted call, and the message that opens from them.
type Source = fn(&Call, &mut Random) -> (Vec<u8>, Vec<u8>);

/// The other implementation opens drawn prefixes.
fn opened_by_the_other(call: &Call, random: &mut Random) -> (Vec<u8>, Vec<u8>) {
    let (s, prefixes) = (&call.scheme, random.bytes(call.prefixes));
    let opened = reference::reconstruct(s.n, s.r, s.z, &s.counts, call.length, &call.parties, &prefixes, call.length);
    (prefixes, opened.unwrap().1)
}

/// The library itself opens the whole of drawn prefixes.
fn opened_whole(call: &Call, random: &mut Random) -> (Vec<u8>, Vec<u8>) {
    let (prefixes, mut message) = (random.bytes(call.prefixes), vec![0; call.length]);
    let answer = calls::reconstruct(call, &prefixes, &mut message);
    assert_eq!(answer, Ok((call.prefixes as u64, call.length as u64)));
    (prefixes, message)
}

/// A drawn message is split.
fn split(call: &Call, random: &mut Random) -> (Vec<u8>, Vec<u8>) {
    let (message, keys) = (random.bytes(call.length), random.bytes(call.keys));
    let shares = compare::expected_shares(call, &message, &keys).unwrap();
    (call.sent(&shares), message)
}

/// An accepted call, the order of its rows, the prefixes that are lent, and the message that opens from them.
#[derive(Clone)]
struct Opening {
    call: Call,
    order: Vec<Row>,
    prefixes: Vec<u8>,
    message: Vec<u8>,
}

impl Opening {
    fn new(random: &mut Random, source: Source, scheme: &Scheme, length: usize, parties: Vec<u8>) -> Opening {
        let order = rows_in_order(scheme.m, scheme.z, &scheme.counts, parties.len());
        let call = Call::new(Form::Earlier, scheme, length, parties);
        let (prefixes, message) = source(&call, random);
        Opening { call, order, prefixes, message }
    }

    /// The message is known: the range has to be there, from as many bytes as the other implementation counts.
    fn has(&self, (start, range_length): (usize, usize), random: &mut Random) {
        let call = self.call.with_range(start, range_length);
        range::of_message(&call, &self.order, &self.prefixes, &self.message, random);
    }

    /// The bytes used of a range, and the range.
    fn opened(&self, (start, range_length): (usize, usize)) -> (u64, Vec<u8>) {
        let mut out = vec![0; range_length];
        let call = self.call.with_range(start, range_length);
        (calls::reconstruct_range(&call, &self.prefixes, &mut out).unwrap(), out)
    }

    /// The numbers of the rows that are taken for a range, in their order.
    fn rows_taken(&self, range: (usize, usize)) -> Vec<usize> {
        rows_taken(&self.order, self.call.scheme.m, range)
    }

    fn blocks(&self) -> usize {
        self.call.form.blocks(self.call.length, self.call.scheme.m)
    }

    /// The byte of a party's row in a block, made another one. Parties, rows and blocks are numbered from 0.
    fn damage(&mut self, party: usize, row: usize, block: usize, random: &mut Random) {
        let place = (party * self.order.len() + row) * self.blocks() + block;
        self.prefixes[place] ^= 1 + random.below(255) as u8;
    }

    /// The same of all parties and blocks.
    fn damage_row(&mut self, row: usize, random: &mut Random) {
        for party in 0..self.call.d {
            (0..self.blocks()).for_each(|block| self.damage(party, row, block, random));
        }
    }
}

/// Opens ranges for schemes with blocks of at most `longest` bytes, every count and several sets of parties, of messages of
/// several lengths.
fn all_ranges(seed: u64, source: Source, longest: usize) {
    let mut random = Random::new(seed);
    let (mut openings, mut opened) = (0, 0);
    for scheme in schemes().iter().filter(|scheme| scheme.m <= longest) {
        for &d in &scheme.counts {
            for parties in sets_of_parties(&mut random, scheme.n, d) {
                for length in lengths(scheme.m) {
                    let opening = Opening::new(&mut random, source, scheme, length, parties.clone());
                    let ranges = ranges(scheme.m, length);
                    ranges.iter().for_each(|&range| opening.has(range, &mut random));
                    openings += 1;
                    opened += ranges.len();
                }
            }
        }
    }
    println!("{opened} ranges of {openings} messages in blocks of at most {longest} bytes");
}

#[test]
fn of_prefixes_that_the_other_implementation_opens() {
    all_ranges(35, opened_by_the_other, 120);
}

#[test]
fn of_prefixes_that_the_library_opens() {
    all_ranges(36, opened_whole, MAX_BLOCK);
}

#[test]
fn of_messages_that_were_split() {
    all_ranges(37, split, MAX_BLOCK);
}

/// One byte at every place of a block that is neither the first nor the last.
#[test]
fn every_place_of_a_block() {
    let mut random = Random::new(38);
    let mut places = 0;
    for scheme in schemes() {
        for &d in &scheme.counts {
            let (m, parties) = (scheme.m, parties(&mut random, scheme.n, d));
            let opening = Opening::new(&mut random, split, &scheme, 2 * m + 1, parties);
            (m..2 * m).for_each(|place| opening.has((place, 1), &mut random));
            places += m;
        }
    }
    println!("{places} places");
}

/// Drawn ranges of drawn prefixes, all of which the other implementation opens by itself.
fn drawn_ranges(seed: u64, calls: usize, longest: usize, blocks: usize) {
    let mut random = Random::new(seed);
    for case in 0..calls {
        let scheme = if case % 20 == 0 { Scheme::default() } else { Scheme::drawn(&mut random, longest) };
        let length = random.below(blocks * scheme.m + 1);
        let call = Call::drawn(&mut random, Form::Earlier, &scheme, length).with_drawn_range(&mut random);
        assert_eq!(range::reconstruct(&call, &mut random), Ok(()));
    }
    println!("{calls} ranges in blocks of at most {longest} bytes");
}

#[test]
fn drawn_ranges_of_drawn_schemes() {
    drawn_ranges(39, 10_000, 24, 4);
    drawn_ranges(40, 500, 12, 140);
    drawn_ranges(41, 2000, 60, 4);
    drawn_ranges(42, 100, MAX_BLOCK, 3);
}

#[test]
fn drawn_ranges_of_the_longest_blocks() {
    let mut random = Random::new(50);
    let [scheme] = accepted([(9, 3, 1, &[9, 8, 7, 6])]);
    for &d in &scheme.counts {
        let call = Call::new(Form::Earlier, &scheme, 2000, parties(&mut random, scheme.n, d));
        for call in [call.with_range(0, 80), call.with_drawn_range(&mut random)] {
            assert_eq!(range::reconstruct(&call, &mut random), Ok(()));
        }
    }
    println!("8 ranges in blocks of {} bytes", scheme.m);
}

#[test]
fn schemes_of_all_kinds() {
    let mut random = Random::new(43);
    let mut schemes = 0;
    // Every fifth, for the time that it takes.
    for scheme in all_schemes().iter().step_by(5) {
        let d = scheme.counts[random.below(scheme.counts.len())];
        let (length, parties) = (1 + random.below(2 * scheme.m), parties(&mut random, scheme.n, d));
        let opening = Opening::new(&mut random, opened_whole, scheme, length, parties);
        let start = random.below(length);
        for most in [8, length] {
            opening.has((start, random.below(most.min(length - start) + 1)), &mut random);
        }
        schemes += 1;
    }
    println!("{schemes} schemes");
    assert!(schemes > 10_000);
}

/// A range, and how many rows are taken for it.
type Rows = ((usize, usize), usize);

/// For each count, the rows of some ranges of a message of this length in so many blocks, counted by hand.
fn counted(scheme: &Scheme, length: usize, blocks: usize, rows: &[&[Rows]]) {
    let mut random = Random::new(44);
    assert_eq!(rows.len(), scheme.counts.len());
    for (&d, rows) in scheme.counts.iter().zip(rows) {
        let parties = parties(&mut random, scheme.n, d);
        let opening = Opening::new(&mut random, split, scheme, length, parties);
        for &(range, rows) in *rows {
            let used = (d as usize * rows * blocks) as u64;
            assert_eq!(opening.opened(range).0, used, "{range:?}, {:?}", opening.call);
            // The other implementation counts as many.
            opening.has(range, &mut random);
        }
    }
}

/// The rows have the places 0 1 2 and 3 4 5; then 2 5; then 1, 4 and 5.
#[test]
fn rows_of_the_default_scheme() {
    let five =
        [((0, 1), 1), ((2, 1), 1), ((3, 1), 2), ((0, 3), 1), ((5, 2), 2), ((6, 3), 1), ((17, 0), 0), ((0, 17), 2)];
    let four =
        [((2, 1), 1), ((5, 1), 1), ((0, 3), 2), ((4, 1), 3), ((5, 4), 2), ((14, 3), 3), ((9, 0), 0), ((0, 17), 3)];
    let three =
        [((1, 1), 1), ((4, 1), 2), ((4, 2), 3), ((2, 1), 4), ((7, 2), 4), ((0, 1), 5), ((0, 3), 5), ((3, 1), 6)];
    counted(&Scheme::default(), 17, 3, &[&five, &four, &three]);
}

/// Figure 2b of the paper: one row has the places 0 to 5, then one 3 4 5 and one 2 5.
#[test]
fn rows_of_figure_2b() {
    let seven = [((0, 1), 1), ((0, 14), 1), ((14, 0), 0)];
    let four = [((3, 3), 1), ((11, 1), 1), ((2, 1), 2), ((3, 4), 2), ((0, 6), 2)];
    let three = [((2, 1), 1), ((5, 1), 1), ((3, 1), 2), ((8, 4), 2), ((0, 1), 3), ((11, 2), 3)];
    let [scheme] = accepted([(7, 4, 1, &[7, 4, 3])]);
    counted(&scheme, 14, 3, &[&seven, &four, &three]);
}

/// Of 840 places the first group has 8 in each of 105 rows; 15 rows of 7 follow, 20 of 6 and 28 of 5. They start with the
/// places 7, 6 and 5. Of the places 0 to 79 some stand in the first 10 rows alone.
#[test]
fn rows_of_the_longest_blocks() {
    let nine = [((0, 8), 1), ((0, 9), 2), ((0, 80), 10), ((839, 1), 105), ((840, 8), 1), ((16384, 0), 0)];
    let eight = [((7, 1), 1), ((63, 1), 2), ((839, 1), 15), ((0, 1), 16), ((0, 80), 25), ((0, 16384), 120)];
    let seven = [((6, 1), 1), ((55, 1), 18), ((839, 1), 20), ((6, 2), 21), ((0, 1), 36), ((0, 80), 45)];
    let six = [((5, 1), 1), ((839, 1), 28), ((6, 1), 29), ((7, 1), 49), ((0, 1), 64), ((839, 2), 64), ((0, 80), 73)];
    let [scheme] = accepted([(9, 3, 1, &[9, 8, 7, 6])]);
    counted(&scheme, MAX_MESSAGE, 20, &[&nine, &eight, &seven, &six]);
}

/// Hands on messages that were split in each scheme, for every count, with ranges of them.
fn split_messages(random: &mut Random, mut to: impl FnMut(&Opening, (usize, usize), &mut Random)) {
    for scheme in schemes() {
        for &d in &scheme.counts {
            for length in [1, scheme.m - 1, scheme.m, 3 * scheme.m + scheme.m / 2] {
                let parties = parties(random, scheme.n, d);
                let opening = Opening::new(random, split, &scheme, length, parties);
                for range in ranges(scheme.m, length) {
                    to(&opening, range, random);
                }
            }
        }
    }
}

/// The rows that are not taken are still on their way: what stands in their place changes nothing.
#[test]
fn rows_that_are_not_taken() {
    let mut random = Random::new(45);
    let (mut ranges, mut damaged_rows) = (0, 0);
    split_messages(&mut random, |opening, range, random| {
        let taken = opening.rows_taken(range);
        let others: Vec<usize> = (0..opening.order.len()).filter(|row| !taken.contains(row)).collect();
        let mut damaged = opening.clone();
        others.iter().for_each(|&row| damaged.damage_row(row, random));
        damaged.has(range, random);
        // Where no row is taken, or all are, there is little to see.
        if !taken.is_empty() && !others.is_empty() {
            ranges += 1;
            damaged_rows += others.len();
        }
    });
    println!("{ranges} ranges, {damaged_rows} damaged rows");
    assert!(ranges > 500);
}

/// Without the last row taken the range would not be there. A byte of the range stands in it at a degree below d and in no
/// row before it, and there some party's weight is not 0.
#[test]
fn the_last_row_taken() {
    let mut random = Random::new(46);
    let (mut ranges, mut decided) = (0, 0);
    split_messages(&mut random, |opening, range, random| {
        let Some(&last) = opening.rows_taken(range).last() else {
            return;
        };
        let expected = opening.opened(range);
        let mut deciding = 0;
        for party in 0..opening.call.d {
            let mut damaged = opening.clone();
            (0..opening.blocks()).for_each(|block| damaged.damage(party, last, block, random));
            let (used, bytes) = damaged.opened(range);
            assert_eq!(used, expected.0, "{range:?}, {:?}", opening.call);
            deciding += (bytes != expected.1) as usize;
        }
        assert!(deciding > 0, "row {last} for {range:?}, {:?}", opening.call);
        ranges += 1;
        decided += deciding;
    });
    println!("{ranges} ranges, {decided} parties that decide on a byte");
}

/// Of a whole block every byte that is sent counts, and in that block alone: each has a weight at degree d - 1 that is not 0.
/// Seen in the first row that is taken, in the last, which is of the first group, and in one of all.
#[test]
fn every_byte_of_a_block() {
    let mut random = Random::new(47);
    let mut bytes = 0;
    for scheme in schemes() {
        let m = scheme.m;
        for &d in &scheme.counts {
            let parties = parties(&mut random, scheme.n, d);
            let opening = Opening::new(&mut random, split, &scheme, 2 * m, parties);
            let taken = opening.rows_taken((m, m));
            assert_eq!(taken.len(), opening.order.len());
            for row in [taken[0], taken[random.below(taken.len())], taken[taken.len() - 1]] {
                for party in 0..opening.call.d {
                    let mut damaged = opening.clone();
                    damaged.damage(party, row, 1, &mut random);
                    assert!(damaged.opened((m, m)).1 != opening.message[m..], "{row}, {:?}", opening.call);
                    assert!(damaged.opened((0, m)).1 == opening.message[..m], "{row}, {:?}", opening.call);
                    bytes += 1;
                }
            }
        }
    }
    println!("{bytes} bytes");
}

/// The last range of a message is accepted, and the first after it is not. Sums that are above 2^64 would pass modulo it.
#[test]
fn the_end_of_the_message() {
    let mut random = Random::new(48);
    let most = usize::MAX;
    for scheme in schemes().iter().filter(|scheme| scheme.m <= 24) {
        for length in lengths(scheme.m) {
            let call = Call::drawn(&mut random, Form::Earlier, scheme, length);
            for range_length in [0, 1, scheme.m, length].into_iter().filter(|&range_length| range_length <= length) {
                let last = call.with_range(length - range_length, range_length);
                assert_eq!(range::reconstruct(&last, &mut random), Ok(()));
                let after = call.with_range(length - range_length + 1, range_length);
                assert_eq!(range::reconstruct(&after, &mut random), Err(15));
            }
            for (start, range_length) in [
                (most, 0),
                (most, 1),
                (most, most),
                (1, most),
                (0, most),
                (most - length, length + 1),
                (most, length + 1),
                (1 << 63, 1 << 63),
                (1 << 32, 0),
                (0, (1 << 32) + length),
            ] {
                // An output as long as the range, where it is not too long to be lent, and others.
                for range in [0, length, range_length.min(MAX_MESSAGE + 1)] {
                    let call = Call { start, range_length, range, ..call.clone() };
                    assert_eq!(range::reconstruct(&call, &mut random), Err(15), "{call:?}");
                }
            }
        }
    }
}
