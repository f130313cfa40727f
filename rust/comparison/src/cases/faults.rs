//! Changes that make an accepted scheme one that is refused, choices of several faults at once, and small changes of numbers.

use super::Scheme;
use crate::random::Random;
use gilunavoi::limits::{MAX_COUNTS, MAX_PARTIES};

/// The refusal that a change of an accepted scheme leads to, and the change.
pub type SchemeFault = (u64, fn(&mut Scheme));

const SIZES: [SchemeFault; 10] = [
    (1, |s| s.n = 0),
    (1, |s| s.n = 1),
    (1, |s| s.n = MAX_PARTIES + 1),
    (1, |s| s.n = 255),
    (2, |s| s.z = 0),
    (2, |s| s.z = s.n - s.r),
    (2, |s| s.z = 255),
    (2, |s| s.r = s.n),
    (2, |s| s.r = 255),
    // As bytes, r + z would be 0.
    (2, |s| s.r = 0u8.wrapping_sub(s.z)),
];

/// The smallest m above the limit, the rules' own example, and the greatest m of all.
const BLOCKS: [SchemeFault; 3] = [
    (4, |s| s.set(14, 7, 1, vec![14, 12, 7])),
    (4, |s| s.set(10, 4, 1, vec![10, 9, 8, 6])),
    (4, |s| s.set(16, 10, 1, vec![14, 12, 10, 9, 8, 6])),
];

/// Changes that make the counts of an accepted scheme bad, refusal 3.
pub const BAD_COUNTS: [fn(&mut Scheme); 10] = [
    |s| s.counts.clear(),
    // Equal neighbours.
    |s| s.counts.insert(0, *s.counts.first().unwrap_or(&s.n)),
    // A rising pair.
    |s| s.counts.insert(0, s.counts.first().unwrap_or(&s.n).wrapping_sub(1)),
    // Starting above n.
    |s| s.counts.insert(0, s.n.wrapping_add(1)),
    // Not ending at n - r: below it, above it, and one further count.
    |s| s.counts.last_mut().into_iter().for_each(|last| *last = last.wrapping_sub(1)),
    |s| s.counts.last_mut().into_iter().for_each(|last| *last = last.wrapping_add(1)),
    |s| s.counts.push(s.counts.last().unwrap_or(&s.n).wrapping_sub(1)),
    // One count too many, and nothing else: they fall from n to n - r.
    |s| {
        let low = MAX_PARTIES - MAX_COUNTS as u8;
        s.set(MAX_PARTIES, MAX_COUNTS as u8, low - 1, (low..=MAX_PARTIES).rev().collect())
    },
    // Lists that would pass if their length were taken modulo 256, and a long one that falls.
    |s| s.counts.resize(s.counts.len() + 256, 1),
    |s| s.counts = (0..=255).rev().collect(),
];

/// All of these changes, in the order in which the rules look for them.
pub fn of_the_scheme() -> Vec<SchemeFault> {
    let counts = BAD_COUNTS.map(|change| (3, change));
    SIZES.into_iter().chain(counts).chain(BLOCKS).collect()
}

/// All choices of one, two or three of the faults, each with the number of the refusal that it leads to. Faults of the
/// same number stand together, in the order in which the rules look for them. Those of a choice have different numbers
/// and stand in the same order.
pub fn choices<Change: Copy>(faults: &[(u64, Change)]) -> Vec<Vec<(u64, Change)>> {
    let mut choices: Vec<Vec<(u64, Change)>> = faults.iter().map(|&fault| vec![fault]).collect();
    let mut start = 0;
    for _ in 0..2 {
        let end = choices.len();
        for shorter in start..end {
            let last = choices[shorter][choices[shorter].len() - 1].0;
            let from_last = faults.iter().skip_while(|fault| fault.0 != last);
            for &fault in from_last.filter(|fault| fault.0 != last) {
                choices.push([&choices[shorter][..], &[fault]].concat());
            }
        }
        start = end;
    }
    choices
}

/// A number that is not far from this one, or the same.
pub fn nearby(random: &mut Random, number: usize) -> usize {
    (number + random.below(4)).saturating_sub(2)
}

/// The same of a byte, or any byte.
pub fn nearby_byte(random: &mut Random, byte: u8) -> u8 {
    if random.below(4) == 0 {
        return random.byte();
    }
    nearby(random, byte as usize) as u8
}
