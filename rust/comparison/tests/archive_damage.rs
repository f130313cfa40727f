//! Files that are nearly archives, or nothing like them, read by the proved library and by the other implementation.

use comparison::cases::archive::{file, WriteCall};
use comparison::compare::archive::read;
use comparison::random::Random;
use comparison::reference;
use gilunavoi::limits::MAX_ENTRIES;

type Pairs = Vec<(usize, usize)>;

/// The pairs of an archive.
fn pairs(archive: &[u8]) -> Pairs {
    let entries = reference::archive::entries(archive).expect("an archive");
    entries.into_iter().map(|entry| (entry.start, entry.len())).collect()
}

/// Archives of up to five entries, the first of none.
fn archives(random: &mut Random, many: usize) -> Vec<Vec<u8>> {
    (0..many).map(|case| WriteCall::drawn(random, case % 6).file()).collect()
}

#[test]
fn every_cut() {
    let mut random = Random::new(46);
    let mut cuts = 0;
    for archive in archives(&mut random, 120) {
        let head = 2 + 4 * pairs(&archive).len();
        for length in 0..archive.len() {
            let expected = if length < head { 12 } else { 13 };
            assert_eq!(read(&archive[..length], &mut random), Err(expected), "{length} bytes of {archive:?}");
            cuts += 1;
        }
    }
    println!("{cuts} cuts");
}

/// Some of them have no bytes modulo 2^16.
#[test]
fn tails() {
    let mut random = Random::new(55);
    for archive in archives(&mut random, 120) {
        for tail in [1, 2, 4, 256, (1 << 16) - 1, 1 << 16, 1 << 17] {
            let longer = [&archive[..], &random.bytes(tail)].concat();
            assert_eq!(read(&longer, &mut random), Err(13), "{tail} bytes after {archive:?}");
        }
    }
}

/// No byte before the entries can be another, and every byte of an entry can.
#[test]
fn every_byte_changed() {
    let mut random = Random::new(47);
    let mut changes = 0;
    for archive in archives(&mut random, 36) {
        let head = 2 + 4 * pairs(&archive).len();
        for place in 0..archive.len().min(head + 20) {
            let mut changed = archive.clone();
            for difference in 1..=255 {
                changed[place] = archive[place] ^ difference;
                assert_eq!(read(&changed, &mut random).is_ok(), place >= head, "byte {place} of {changed:?}");
                changes += 1;
            }
        }
    }
    println!("{changes} changes");
}

/// Cuts, and single bits, of an archive of the most entries.
#[test]
fn a_large_archive() {
    let mut random = Random::new(56);
    let archive = WriteCall::new(&mut random, vec![12; MAX_ENTRIES]).file();
    let head = 2 + 4 * MAX_ENTRIES;
    for length in [0, 1, 2, 3, head - 4, head - 1, head, head + 1, archive.len() - 12, archive.len() - 1] {
        let expected = if length < head { 12 } else { 13 };
        assert_eq!(read(&archive[..length], &mut random), Err(expected), "{length} bytes");
    }
    for place in (0..30).chain((30..head - 10).step_by(97)).chain(head - 10..head + 4) {
        let mut changed = archive.clone();
        changed[place] ^= 1 << random.below(8);
        assert_eq!(read(&changed, &mut random).is_ok(), place >= head, "byte {place}");
    }
}

/// Changes of the pair of one entry, not the last, and of the one after it. All but the last are faults.
const CHANGES: [fn(&mut Pairs, usize); 15] = [
    |pairs, i| pairs.swap(i, i + 1),
    // Overlaps: the next one starts a byte early, with its old end or its old length; this one ends a byte late; both are
    // this one.
    |pairs, i| pairs[i + 1] = (pairs[i + 1].0 - 1, pairs[i + 1].1 + 1),
    |pairs, i| pairs[i + 1].0 -= 1,
    |pairs, i| pairs[i].1 += 1,
    |pairs, i| pairs[i + 1] = pairs[i],
    // Gaps: the next one starts a byte late, with its old end or its old length; this one ends a byte early.
    |pairs, i| pairs[i + 1] = (pairs[i + 1].0 + 1, pairs[i + 1].1 - 1),
    |pairs, i| pairs[i + 1].0 += 1,
    |pairs, i| pairs[i].1 -= 1,
    // No bytes: in this one, in the next one, and in either with all bytes of both in the other.
    |pairs, i| pairs[i].1 = 0,
    |pairs, i| pairs[i + 1].1 = 0,
    |pairs, i| (pairs[i].1, pairs[i + 1]) = (0, (pairs[i].0, pairs[i].1 + pairs[i + 1].1)),
    |pairs, i| (pairs[i].1, pairs[i + 1]) = (pairs[i].1 + pairs[i + 1].1, (pairs[i + 1].0 + pairs[i + 1].1, 0)),
    // All from here on a byte later, and a byte earlier.
    |pairs, i| pairs[i..].iter_mut().for_each(|pair| pair.0 += 1),
    |pairs, i| pairs[i..].iter_mut().for_each(|pair| pair.0 -= 1),
    // The first byte of the next one becomes the last of this one, which is another archive.
    |pairs, i| (pairs[i].1, pairs[i + 1]) = (pairs[i].1 + 1, (pairs[i + 1].0 + 1, pairs[i + 1].1 - 1)),
];

#[test]
fn pairs_changed() {
    let mut random = Random::new(48);
    let mut files = 0;
    for case in 0..800 {
        let count = if case == 0 { 1000 } else { 2 + random.below(6) };
        let lengths = (0..count).map(|_| 2 + random.below(40)).collect();
        let archive = WriteCall::new(&mut random, lengths).file();
        let (right, contents) = (pairs(&archive), &archive[2 + 4 * count..]);
        for (change, changed) in CHANGES.iter().enumerate() {
            let mut pairs = right.clone();
            changed(&mut pairs, random.below(count - 1));
            let expected = if change == CHANGES.len() - 1 { Ok(()) } else { Err(13) };
            assert_eq!(read(&file(count, &pairs, contents), &mut random), expected, "change {change}, {pairs:?}");
            files += 1;
        }
    }
    println!("{files} files");
}

/// A byte too many in the contents leaves a tail, and a pair too many or too few moves all entries.
#[test]
fn bytes_and_pairs_put_in_or_left_out() {
    let mut random = Random::new(49);
    for archive in archives(&mut random, 600) {
        let right = pairs(&archive);
        let (count, contents) = (right.len(), &archive[2 + 4 * right.len()..]);
        let place = random.below(contents.len() + 1);
        let longer = [&contents[..place], &[0], &contents[place..]].concat();
        assert_eq!(read(&file(count, &right, &longer), &mut random), Err(13), "{archive:?}");
        let mut more = right.clone();
        more.insert(random.below(count + 1), (2 + 4 * count, 1));
        assert_eq!(read(&file(count + 1, &more, contents), &mut random), Err(13), "{archive:?}");
        assert_eq!(read(&file(count, &more, contents), &mut random), Err(13), "{archive:?}");
        if count > 0 {
            let fewer = &right[1..];
            assert_eq!(read(&file(count - 1, fewer, contents), &mut random), Err(13), "{archive:?}");
        }
    }
    println!("600 archives");
}

/// All files of up to eight bytes out of a few: the archive of no entries, those of one byte and those of two.
#[test]
fn every_short_file() {
    let mut random = Random::new(50);
    let bytes = [0, 1, 2, 6, 7];
    let mut outcomes = [0; 15];
    for length in 0..=8 {
        for chosen in 0..5usize.pow(length) {
            let file: Vec<u8> = (0..length).map(|place| bytes[chosen / 5usize.pow(place) % 5]).collect();
            outcomes[read(&file, &mut random).err().unwrap_or(0) as usize] += 1;
        }
    }
    println!("files by refusal: {outcomes:?}");
    assert_eq!(outcomes[0], 1 + 5 + 25);
}

/// Drawn bytes, of which the count and the first offset are often right.
#[test]
fn drawn_bytes() {
    let mut random = Random::new(51);
    let mut outcomes = [0; 15];
    for _ in 0..40_000 {
        let count = random.below(4);
        let length = random.below(24);
        let mut file = file(count, &[(2 + 4 * count, 1 + random.below(4))], &random.bytes(length));
        let changed = random.below(file.len());
        if random.below(4) == 0 {
            file[changed] = random.byte();
        }
        outcomes[read(&file, &mut random).err().unwrap_or(0) as usize] += 1;
    }
    println!("40000 files by refusal: {outcomes:?}");
    assert!(outcomes[0] > 200 && outcomes[12] > 5000 && outcomes[13] > 10_000);
}
