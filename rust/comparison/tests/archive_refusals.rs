//! Refusals of the calls on archives: each alone, and every two and three at once. The first in the order of the rules
//! is the answer, and nothing is written.

use comparison::cases::archive::WriteCall;
use comparison::cases::faults::choices;
use comparison::compare::{archive, Agreed};
use comparison::random::Random;
use gilunavoi::limits::{MAX_ENTRIES, MAX_OFFSET_OR_LENGTH};

/// The refusal that a change of an accepted call leads to, and the change.
type Fault<Call> = (u64, fn(&mut Call));

/// The writer, in the order in which it looks: too many entries; entries that break the rules; the output.
const WRITING: [Fault<WriteCall>; 25] = [
    (12, |w| (w.lengths.len()..=MAX_ENTRIES).for_each(|_| w.push(1))),
    (12, |w| (w.lengths.len()..=MAX_ENTRIES).for_each(|_| w.push(0))),
    // Modulo 2^16 there would be as many as before.
    (12, |w| (0..1 << 16).for_each(|_| w.push(1))),
    // No bytes: the bytes of the first are still there, or gone; one more at the end, and at the start.
    (13, |w| w.lengths[0] = 0),
    (13, |w| drop(w.contents.drain(..std::mem::take(&mut w.lengths[0])))),
    (13, |w| w.push(0)),
    (13, |w| w.lengths.insert(0, 0)),
    // Sums that are short or long by one.
    (13, |w| w.contents.push(7)),
    (13, |w| w.contents.truncate(w.contents.len() - 1)),
    (13, |w| w.lengths[0] += 1),
    (13, |w| *w.lengths.last_mut().unwrap() -= 1),
    // Sums that are right modulo 2^64, 2^63, 2^32 and 2^16.
    (13, |w| w.lengths.extend([1 << 63, 1 << 63])),
    (13, |w| w.lengths.extend([usize::MAX, 1])),
    (13, |w| drop(w.lengths.splice(0..0, [1, usize::MAX]))),
    (13, |w| w.lengths[0] += 1 << 63),
    (13, |w| w.lengths[0] += 1 << 32),
    (13, |w| w.lengths[0] += 1 << 16),
    // A length, and an offset, that two bytes do not hold.
    (13, |w| w.push(MAX_OFFSET_OR_LENGTH + 1)),
    (13, |w| [MAX_OFFSET_OR_LENGTH, 1].into_iter().for_each(|length| w.push(length))),
    (10, |w| w.excess = 1),
    (10, |w| w.excess = -1),
    (10, |w| w.excess = -2),
    (10, |w| w.excess = 4),
    (10, |w| w.excess = 1 << 16),
    (10, |w| w.excess = isize::MIN),
];

#[derive(Clone, Debug)]
struct Lookup {
    file: Vec<u8>,
    number: usize,
    /// How many entries the file had before it was changed.
    count: usize,
}

/// The reader, in the order in which it looks: the count and the pairs; what they say; the number.
const READING: [Fault<Lookup>; 25] = [
    (12, |l| l.file.clear()),
    (12, |l| l.file.truncate(1)),
    (12, |l| l.file.truncate(2)),
    (12, |l| l.file.truncate(4 * l.count - 2)),
    (12, |l| l.file.truncate(4 * l.count + 1)),
    (12, |l| l.file[..2].copy_from_slice(&[1, 16])),
    (12, |l| l.file[..2].copy_from_slice(&[255, 255])),
    (12, |l| l.file[1] += 32),
    (13, |l| l.file.push(0)),
    (13, |l| l.file.truncate(l.file.len() - 1)),
    // The first offset, and the first length: another low byte, another high byte, no length.
    (13, |l| l.file[2] ^= 1),
    (13, |l| l.file[3] += 1),
    (13, |l| l.file[4] ^= 1),
    (13, |l| l.file[5] += 1),
    (13, |l| l.file[4..6].fill(0)),
    // The last pair in the same way.
    (13, |l| l.file[4 * l.count - 1] += 1),
    (13, |l| l.file[4 * l.count] ^= 1),
    (13, |l| l.file[4 * l.count..4 * l.count + 2].fill(0)),
    (14, |l| l.number = l.count),
    (14, |l| l.number = l.count + 1),
    (14, |l| l.number += 1 << 16),
    (14, |l| l.number += 1 << 32),
    (14, |l| l.number += 1 << 63),
    (14, |l| l.number = 65535),
    (14, |l| l.number = usize::MAX),
];

/// Puts every choice of faults into accepted calls.
fn refused<Call: Clone>(faults: &[Fault<Call>], accepted: &[Call], mut compare: impl FnMut(&Call) -> Agreed) {
    let choices = choices(faults);
    for right in accepted {
        assert_eq!(compare(right), Ok(()));
        for choice in &choices {
            let mut call = right.clone();
            // Last first, since a fault wants all that is looked at before it as it was.
            choice.iter().rev().for_each(|(_, change)| change(&mut call));
            let numbers: Vec<u64> = choice.iter().map(|fault| fault.0).collect();
            assert_eq!(compare(&call), Err(numbers[0]), "{numbers:?}");
        }
    }
    println!("{} choices of faults, {} calls", choices.len(), accepted.len() * choices.len());
    assert!(choices.len() > 400);
}

#[test]
fn of_the_writer() {
    let mut random = Random::new(52);
    let accepted = [1, 1, 2, 3, 5, 8].map(|count| WriteCall::drawn(&mut random, count));
    refused(&WRITING, &accepted, |call| archive::write(call, &mut random));
}

#[test]
fn of_the_reader() {
    let mut random = Random::new(53);
    let accepted = [1, 1, 2, 3, 5, 40].map(|count| {
        let file = WriteCall::drawn(&mut random, count).file();
        Lookup { file, number: random.below(count), count }
    });
    refused(&READING, &accepted, |call| archive::entry(&call.file, call.number, &mut random));
}

fn nearby(random: &mut Random, number: usize) -> usize {
    (number + random.below(4)).saturating_sub(2)
}

/// A change of the writer's call that may be a fault or not.
fn damage_writing(call: &mut WriteCall, random: &mut Random) {
    let place = random.below(call.lengths.len());
    match random.below(6) {
        0 => call.lengths[place] = nearby(random, call.lengths[place]),
        1 => call.contents.resize(nearby(random, call.contents.len()), 3),
        2 => call.push(random.below(9)),
        3 => call.excess = random.below(3) as isize - 1,
        4 => call.lengths[place] = random.number() as usize >> random.below(64),
        // Where the next one starts.
        _ => {
            let length = call.lengths.remove(place);
            call.lengths.splice(place..place, [length / 2, length - length / 2]);
        }
    }
}

/// A change of a lookup that may be a fault or not.
fn damage_reading(call: &mut Lookup, random: &mut Random) {
    let place = random.below(call.file.len().clamp(1, 2 + 4 * call.count));
    match random.below(6) {
        0 => call.file.truncate(nearby(random, call.file.len())),
        1 => call.file.push(random.byte()),
        2 => call.number = nearby(random, call.number),
        3 => call.number = random.number() as usize >> random.below(64),
        4 => call.file.truncate(random.below(call.file.len() + 1)),
        _ => call.file.iter_mut().skip(place).take(1).for_each(|byte| *byte = nearby(random, *byte as usize) as u8),
    }
}

#[test]
fn drawn_damage() {
    let mut random = Random::new(54);
    let mut outcomes = [[0; 15]; 2];
    for _ in 0..30_000 {
        let count = 1 + random.below(6);
        let mut writing = WriteCall::drawn(&mut random, count);
        let mut reading = Lookup { file: writing.file(), number: random.below(count), count };
        for _ in 0..1 + random.below(3) {
            damage_writing(&mut writing, &mut random);
            damage_reading(&mut reading, &mut random);
        }
        outcomes[0][archive::write(&writing, &mut random).err().unwrap_or(0) as usize] += 1;
        let read = archive::entry(&reading.file, reading.number, &mut random);
        outcomes[1][read.err().unwrap_or(0) as usize] += 1;
    }
    println!("30000 calls each, by refusal: {outcomes:?}");
    assert!(outcomes.iter().all(|outcomes| outcomes[0] > 3000 && outcomes[0] < 20_000));
}
