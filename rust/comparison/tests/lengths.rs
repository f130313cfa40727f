//! The lengths that belong to a message: against the other implementation, and against the calls that take them.

use comparison::calls;
use comparison::cases::faults::of_the_scheme;
use comparison::cases::{falling_lists, schemes, Call, Form, Scheme, FORMS};
use comparison::compare::lengths;
use comparison::random::Random;
use gilunavoi::limits::MAX_MESSAGE;
use gilunavoi::{raw, Lengths};

/// Lengths around the ends of blocks and of what is accepted, and the largest numbers that there are.
fn edges(m: usize) -> Vec<usize> {
    let last = MAX_MESSAGE / m * m;
    let around = [0, m, 2 * m, last, MAX_MESSAGE].into_iter().flat_map(|edge| edge.saturating_sub(1)..=edge + 1);
    around.chain([MAX_MESSAGE + m, usize::MAX - m, usize::MAX - 1, usize::MAX]).collect()
}

#[test]
fn every_length_in_some_schemes() {
    for scheme in schemes() {
        for length in 0..=MAX_MESSAGE {
            // Rows are built anew for each, and those of long blocks are many.
            if scheme.m <= 12 || length % 41 == 0 {
                assert_eq!(lengths(&scheme, length), Ok(()));
            }
        }
        edges(scheme.m).into_iter().filter(|&length| length > MAX_MESSAGE).for_each(|length| {
            assert_eq!(lengths(&scheme, length), Err(5));
        });
    }
}

/// Every scheme with up to so many parties that can be accepted, and its refusals, at the edges.
#[test]
fn every_falling_list_of_good_sizes() {
    let (mut outcomes, mut random) = ([0; 6], Random::new(5));
    falling_lists(|n, r, z, counts| {
        // One in a hundred: each builds its rows.
        if random.below(100) == 0 {
            let scheme = Scheme { n, r, z, counts, m: 0, b: 0 };
            let m = raw::check(n, r, z, &scheme.counts).map_or(1, |(m, _)| m as usize);
            for length in edges(m) {
                outcomes[lengths(&scheme, length).err().unwrap_or(0) as usize] += 1;
            }
        }
    });
    println!("{outcomes:?}");
    assert!(outcomes[0] > 3000 && outcomes[3] > 1000 && outcomes[4] > 3000 && outcomes[5] > 1000);
}

/// A scheme that is refused is refused before the length is.
#[test]
fn a_refused_scheme_and_any_length() {
    for (number, change) in of_the_scheme() {
        let mut scheme = Scheme::default();
        change(&mut scheme);
        for length in edges(scheme.m) {
            assert_eq!(lengths(&scheme, length), Err(number), "{scheme:?}");
        }
    }
}

/// The call takes these lengths and no others, and so does the opening of what it writes.
fn takes(call: &Call, random: &mut Random) {
    let Scheme { n, r, z, ref counts, .. } = call.scheme;
    let lengths = if call.form == Form::Padded { raw::lengths_padded } else { raw::lengths };
    let Lengths { keys, share, output, opened, .. } = lengths(n, r, z, counts, call.length).expect("accepted");
    let message = random.bytes(call.length);
    let mut split = |keys: usize, shares: &mut [u8]| calls::split(call, &message, &random.bytes(keys), shares);
    let mut shares = vec![0; output];
    assert_eq!(split(keys, &mut shares), Ok(share as u64));
    for other in [keys + 1, keys.saturating_sub(1)].into_iter().filter(|&other| other != keys) {
        assert_eq!(split(other, &mut vec![0; output]), Err(8));
    }
    for other in [output + 1, output.saturating_sub(1)].into_iter().filter(|&other| other != output) {
        assert_eq!(split(keys, &mut vec![0; other]), Err(10));
    }
    let (prefixes, mut room) = (call.sent(&shares), vec![0; opened]);
    let answer = calls::reconstruct(call, &prefixes, &mut room);
    assert_eq!(answer.map(|_| &room[..call.length]), Ok(&message[..]), "{call:?}");
    assert_eq!(calls::reconstruct(call, &prefixes, &mut vec![0; opened + 1]), Err(10));
}

#[test]
fn the_calls_take_them() {
    let mut random = Random::new(6);
    for scheme in schemes() {
        for form in FORMS {
            for length in [0, 1, scheme.m - 1, scheme.m, scheme.m + 1, 3 * scheme.m + 2] {
                takes(&Call::drawn(&mut random, form, &scheme, length), &mut random);
            }
        }
    }
}
