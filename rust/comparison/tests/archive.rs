//! Archives that are written and read again, by the proved library and by the other implementation, and where the
//! limits are.

use comparison::cases::archive::{file, WriteCall};
use comparison::compare::archive::{entry, read, write};
use comparison::random::Random;
use gilunavoi::limits::{MAX_ENTRIES, MAX_OFFSET_OR_LENGTH};
use gilunavoi::raw::archive;

/// The file that the library writes.
fn written(contents: &[u8], lengths: &[usize]) -> Vec<u8> {
    let mut file = vec![1; archive::file_length(lengths.len(), contents.len())];
    assert_eq!(archive::write(contents, lengths, &mut file), Ok(file.len() as u64), "{lengths:?}");
    file
}

/// Worked out by hand.
#[test]
fn stored_archives() {
    let mut random = Random::new(40);
    let stored: [(&[&[u8]], &[u8]); 4] = [
        (&[], &[0, 0]),
        (&[&[7]], &[1, 0, 6, 0, 1, 0, 7]),
        (&[&[7], &[8, 9]], &[2, 0, 10, 0, 1, 0, 11, 0, 2, 0, 7, 8, 9]),
        (&[&[8, 9], &[7], &[0; 3]], &[3, 0, 14, 0, 2, 0, 16, 0, 1, 0, 17, 0, 3, 0, 8, 9, 7, 0, 0, 0]),
    ];
    for (entries, file) in stored {
        let lengths: Vec<usize> = entries.iter().map(|entry| entry.len()).collect();
        assert_eq!(written(&entries.concat(), &lengths), file);
        assert_eq!(archive::count(file), Ok(entries.len() as u64));
        for (number, entry) in entries.iter().enumerate() {
            assert_eq!(archive::entry(file, number), Ok(*entry));
        }
        assert_eq!(archive::place(file, entries.len()), Err(14));
        assert_eq!(read(file, &mut random), Ok(()));
    }
    // Numbers that need their second byte: 259 = 3 + 256 entries, the first at 1038 = 14 + 4 × 256.
    let file = written(&[5; 258 + 515], &[&[515][..], &[1; 258]].concat());
    assert_eq!(file[..10], [3, 1, 14, 4, 3, 2, 17, 6, 1, 0]);
    assert_eq!(read(&file, &mut random), Ok(()));
}

/// Files that are no archives, by the document's words, and a lookup in one that is.
#[test]
fn stored_refusals() {
    let mut random = Random::new(41);
    let refused: [(&[u8], u64); 17] = [
        (&[], 12),
        (&[0], 12),
        (&[1, 0], 12),
        (&[1, 0, 6, 0, 1], 12),
        (&[2, 0, 10, 0, 1, 0, 7], 12),
        // The first pair is wrong, but the second one is cut short.
        (&[2, 0, 9, 0, 0, 0, 7], 12),
        (&[1, 16, 0, 0], 12),
        (&[255, 255], 12),
        // A tail, also of no entries; the last byte missing.
        (&[0, 0, 0], 13),
        (&[1, 0, 6, 0, 1, 0, 7, 7], 13),
        (&[1, 0, 6, 0, 1, 0], 13),
        // No bytes; a gap; an entry from within the pairs on.
        (&[1, 0, 6, 0, 0, 0], 13),
        (&[1, 0, 7, 0, 1, 0, 9, 7], 13),
        (&[1, 0, 5, 0, 2, 0, 7], 13),
        // Two entries that overlap, that have a gap between them, and in the wrong order.
        (&[2, 0, 10, 0, 2, 0, 11, 0, 2, 0, 7, 8, 9], 13),
        (&[2, 0, 10, 0, 1, 0, 12, 0, 1, 0, 7, 8, 9], 13),
        (&[2, 0, 11, 0, 2, 0, 10, 0, 1, 0, 7, 8, 9], 13),
    ];
    for (file, number) in refused {
        assert_eq!((archive::count(file), archive::place(file, 0)), (Err(number), Err(number)), "{file:?}");
        assert_eq!(read(file, &mut random), Err(number), "{file:?}");
    }
    let two = [2, 0, 10, 0, 1, 0, 11, 0, 2, 0, 7, 8, 9];
    assert_eq!([0, 1, 2].map(|number| archive::place(&two, number)), [Ok((10, 1)), Ok((11, 2)), Err(14)]);
    assert_eq!(entry(&two, 2, &mut random), Err(14));
}

#[test]
fn drawn_archives() {
    let mut random = Random::new(42);
    for case in 0..6000 {
        let count = if case % 50 == 0 { random.below(100) } else { random.below(8) };
        let call = WriteCall::drawn(&mut random, count);
        assert_eq!(write(&call, &mut random), Ok(()));
        let file = written(&call.contents, &call.lengths);
        let mut rest = &call.contents[..];
        for (number, &length) in call.lengths.iter().enumerate() {
            assert_eq!(entry(&file, number, &mut random), Ok(()));
            assert_eq!(archive::entry(&file, number), Ok(&rest[..length]));
            rest = &rest[length..];
        }
        assert_eq!(read(&file, &mut random), Ok(()));
    }
    println!("6000 archives");
}

/// Entries of one length each, and after them one of another.
fn lengths(count: usize, each: usize, last: usize) -> Vec<usize> {
    [vec![each; count], vec![last]].concat()
}

/// The limits are where the library draws its lines. The last offset is 2 and 4 a pair, and what stands before.
#[test]
fn the_limits() {
    let mut random = Random::new(43);
    let (most, limit) = (MAX_ENTRIES, MAX_OFFSET_OR_LENGTH);
    // One entry short of the most, twelve bytes each, leave so much for the one before the last.
    let rest = limit - (2 + 4 * most) - 12 * (most - 2);
    for (lengths, expected) in [
        (vec![1; most - 1], Ok(())),
        (vec![1; most], Ok(())),
        (vec![1; most + 1], Err(12)),
        (vec![1; 1 << 16], Err(12)),
        (vec![1; (1 << 16) + 1], Err(12)),
        (vec![limit], Ok(())),
        (vec![limit + 1], Err(13)),
        (lengths(1, limit - 10, 1), Ok(())),
        (lengths(1, limit - 9, 1), Err(13)),
        (lengths(1, limit - 10, limit), Ok(())),
        (lengths(1, limit - 10, limit + 1), Err(13)),
        (lengths(1, limit, 1), Err(13)),
        (lengths(2, (1 << 15) - 8, 1), Ok(())),
        (lengths(2, (1 << 15) - 7, 1), Err(13)),
        ([vec![12; most - 2], vec![rest, limit]].concat(), Ok(())),
        ([vec![12; most - 2], vec![rest + 1, limit]].concat(), Err(13)),
    ] {
        let (count, contents) = (lengths.len(), lengths.iter().sum::<usize>());
        let call = WriteCall::new(&mut random, lengths);
        assert_eq!(write(&call, &mut random), expected, "{count} entries, {contents} bytes");
        if expected.is_ok() {
            assert_eq!(read(&call.file(), &mut random), Ok(()));
        }
    }
}

/// Too many entries, and files that would be right if offsets and lengths were taken modulo 2^16.
#[test]
fn files_beyond_the_limits() {
    let mut random = Random::new(44);
    for count in [MAX_ENTRIES + 1, MAX_ENTRIES + 256, (1 << 16) - 1] {
        let pairs: Vec<(usize, usize)> = (0..count).map(|number| (2 + 4 * count + number, 1)).collect();
        let whole = file(count, &pairs, &vec![7; count]);
        for length in [whole.len(), 2 + 4 * count, 2 + 4 * count - 1, 2] {
            assert_eq!(read(&whole[..length], &mut random), Err(12), "{count} entries, {length} bytes");
        }
    }
    // The second entry stands where two bytes cannot say it; a file is longer by 2^16 than its pairs tell.
    let contents = random.bytes((1 << 16) + 8);
    assert_eq!(read(&file(2, &[(10, 65525), (65535, 1)], &contents[..65526]), &mut random), Ok(()));
    assert_eq!(read(&file(2, &[(10, 65526), (65536, 1)], &contents[..65527]), &mut random), Err(13));
    assert_eq!(read(&file(1, &[(6, 8)], &contents), &mut random), Err(13));
    assert_eq!(read(&file(0, &[], &contents[..1 << 16]), &mut random), Err(13));
}

/// Entries of no bytes, and lengths that do not add up to the contents: by one, or only modulo a power of two.
#[test]
fn lengths_that_break_the_rules() {
    let mut random = Random::new(45);
    let half = 1 << 63;
    for (lengths, contents) in [
        (vec![0], 0),
        (vec![0, 5], 5),
        (vec![5, 0], 5),
        (vec![], 1),
        (vec![1], 0),
        (vec![5], 4),
        (vec![5], 6),
        (vec![2, 3], 4),
        (vec![2, 3], 6),
        (vec![half, half], 0),
        (vec![half, half, 5], 5),
        (vec![5, half, half], 5),
        (vec![half, 5, half], 5),
        (vec![usize::MAX, 1], 0),
        (vec![1, usize::MAX], 0),
        (vec![usize::MAX, 6], 5),
        (vec![6, usize::MAX], 5),
        (vec![usize::MAX], usize::from(u16::MAX)),
        (vec![usize::MAX - 5], 0),
        (vec![1 << 16], 0),
        (vec![(1 << 16) + 5], 5),
        (vec![(1 << 32) + 5], 5),
        (vec![half + 5], 5),
    ] {
        let contents = random.bytes(contents);
        for excess in [0, 1] {
            let call = WriteCall { contents: contents.clone(), lengths: lengths.clone(), excess };
            assert_eq!(write(&call, &mut random), Err(13), "{call:?}");
        }
    }
}
