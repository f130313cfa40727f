//! The same of archives.

use super::{written, Agreed, Lent};
use crate::cases::archive::WriteCall;
use crate::random::Random;
use crate::reference;
use gilunavoi::raw::archive;

pub fn write(call: &WriteCall, random: &mut Random) -> Agreed {
    let (contents, lengths) = (Lent::of(random, &call.contents), &call.lengths[..]);
    let contents = contents.bytes();
    let expected = reference::archive::write(contents, lengths, call.out()).map(|file| (file.len() as u64, file));
    written(call, random, call.out(), &expected, |out| archive::write(contents, lengths, out));
    expected.map(|_| ())
}

/// Counts the entries of a file and looks up one.
pub fn entry(file: &[u8], number: usize, random: &mut Random) -> Agreed {
    let lent = Lent::of(random, file);
    let file = lent.bytes();
    let count = reference::archive::entries(file).map(|entries| entries.len() as u64);
    assert_eq!(archive::count(file), count, "{file:?}");
    let part = reference::archive::entry(file, number);
    let place = part.clone().map(|part| (part.start as u64, part.len() as u64));
    assert_eq!(archive::place(file, number), place, "entry {number} of {file:?}");
    // The file's own part, and no other with the same bytes.
    let part = part.map(|part| file[part].as_ptr_range());
    assert_eq!(archive::entry(file, number).map(<[u8]>::as_ptr_range), part, "entry {number} of {file:?}");
    part.map(|_| ())
}

/// Reads all entries and writes them again: the same file, since no second one has them.
fn written_again(file: &[u8], count: usize) {
    let entries: Vec<&[u8]> = (0..count).map(|number| archive::entry(file, number).expect("an entry")).collect();
    let lengths: Vec<usize> = entries.iter().map(|entry| entry.len()).collect();
    let mut again = vec![1; file.len()];
    assert_eq!(archive::write(&entries.concat(), &lengths, &mut again), Ok(file.len() as u64), "{file:?}");
    assert!(again == file, "another file has the entries of {file:?}");
}

/// Looks up some of the entries that a file has, the first and the last among them, and numbers that no entry has: some
/// would pass modulo 2^16 or 2^32. An archive is written again.
pub fn read(file: &[u8], random: &mut Random) -> Agreed {
    let outcome = reference::archive::entries(file).map(|entries| entries.len());
    let count = outcome.unwrap_or(1);
    let drawn = random.below(count + 1);
    for number in [0, drawn, count.wrapping_sub(1), count, 1 << 16, 1 << 32, 1 << 63, usize::MAX] {
        let expected = outcome.and_then(|count| if number < count { Ok(()) } else { Err(14) });
        assert_eq!(entry(file, number, random), expected);
    }
    outcome.map(|count| written_again(file, count))
}
