//! The check of a scheme against the other implementation, in both forms: with and without how many multiples were tried.

use comparison::cases::faults::BAD_COUNTS;
use comparison::cases::{falling_lists, Scheme};
use comparison::compare::check;
use comparison::random::Random;
use gilunavoi::limits::*;
use gilunavoi::raw;

/// How many schemes were accepted, and how many were refused with 1, 2, 3 and 4.
#[derive(Default, Debug)]
struct Tally {
    outcomes: [usize; 5],
}

impl Tally {
    fn check(&mut self, scheme: &Scheme) {
        self.outcomes[check(scheme).err().unwrap_or(0) as usize] += 1;
    }
}

fn scheme(n: u8, r: u8, z: u8, counts: Vec<u8>) -> Scheme {
    Scheme { n, r, z, counts, m: 0, b: 0 }
}

/// Every falling list of numbers from 1 to 11, the empty one and those that are too long among them, and each of them with
/// one number put in somewhere, which is a fault more often than not.
fn lists(random: &mut Random) -> Vec<Vec<u8>> {
    let lists = (0..1 << 11).flat_map(|chosen: u32| {
        let falling: Vec<u8> = (1..=11).rev().filter(|d| chosen >> (d - 1) & 1 == 1).collect();
        let mut longer = falling.clone();
        longer.insert(random.below(longer.len() + 1), random.byte() % 21);
        [falling, longer]
    });
    lists.collect()
}

/// All n, r and z up to 20, and some at the upper end, with lists of counts that are near what n and r want and with
/// thousands that are the same for all.
#[test]
fn small_sizes_and_the_ends_of_the_byte_range() {
    let mut random = Random::new(1);
    let sizes: Vec<u8> = (0..=20).chain(250..=255).collect();
    let mut tally = Tally::default();
    let mut same_for_all: Vec<Scheme> = lists(&mut random).into_iter().map(|counts| scheme(0, 0, 0, counts)).collect();
    for &n in &sizes {
        for &r in &sizes {
            for &z in &sizes {
                // A list that falls to n - r, often from at most n, and what is near it.
                let low = n.wrapping_sub(r);
                let counts = (low..=n.max(low)).filter(|&d| d == low || random.below(4) == 0).rev().collect();
                let good = scheme(n, r, z, counts);
                tally.check(&good);
                for change in BAD_COUNTS {
                    let mut bad = good.clone();
                    change(&mut bad);
                    tally.check(&bad);
                }
                for scheme in &mut same_for_all {
                    (scheme.n, scheme.r, scheme.z) = (n, r, z);
                    tally.check(scheme);
                }
            }
        }
    }
    println!("{tally:?}");
    assert!(tally.outcomes.iter().all(|&many| many > 500));
}

#[test]
fn every_falling_list_of_good_sizes() {
    let mut tally = Tally::default();
    falling_lists(|n, r, z, counts| tally.check(&scheme(n, r, z, counts)));
    println!("{tally:?}");
    assert_eq!(tally.outcomes, [50_975, 0, 0, 21_778, 58_165]);
}

#[test]
fn drawn_bytes_and_long_lists() {
    let mut random = Random::new(2);
    let mut tally = Tally::default();
    for _ in 0..20_000 {
        let length = if random.below(20) == 0 { 250 + random.below(300) } else { random.below(12) };
        let mut counts = random.bytes(length);
        counts.iter_mut().for_each(|count| *count %= 24);
        tally.check(&scheme(random.byte() % 24, random.byte() % 24, random.byte() % 8, counts.clone()));
        // It would pass if its length were taken modulo 256.
        counts.splice(0..0, [5, 4, 3]);
        counts.resize(3 + 256 * (1 + random.below(3)), 0);
        tally.check(&scheme(5, 2, 1, counts));
    }
    println!("{tally:?}");
    assert!(tally.outcomes[0] < tally.outcomes.iter().sum::<usize>() / 2);
}

/// The constants are where the library draws its lines.
#[test]
fn the_limits() {
    let (n, many) = (MAX_PARTIES, MAX_COUNTS as u8);
    // As many parties, as many counts and as long a block as there may be.
    let counts: Vec<u8> = (n - many + 1..=n).rev().collect();
    assert_eq!(raw::check(n, many - 1, many, &counts), Ok((MAX_BLOCK as u64, MAX_BLOCK as u64)));
    assert_eq!(raw::check(n + 1, 1, 1, &[n]), Err(1));
    let one_more: Vec<u8> = (n - many..=n).rev().collect();
    assert_eq!(raw::check(n, many, many - 1, &one_more), Err(3));
    for (length, answer) in [(MAX_MESSAGE, Err(9)), (MAX_MESSAGE + 1, Err(5))] {
        assert_eq!(raw::prefix_default(length, 3, &[]), answer);
    }
}

#[test]
fn the_default_scheme_and_the_former() {
    let scheme = Scheme::default();
    assert_eq!((scheme.m, scheme.b, check(&scheme)), (6, 6, Ok(())));
    let scheme = Scheme::former_default();
    assert_eq!((scheme.m, scheme.b, check(&scheme), scheme.is_default()), (12, 6, Ok(()), false));
}
