//! Archives, written from the words of their document and by other means than the proved library: what the reader
//! accepts is said of all entries at once, and the writer cuts the entries off the contents one after another. Speed
//! is no aim.

use super::first_refusal;
use std::ops::Range;

/// The limit of the document, apart from the one that the library's users are told.
const MOST_ENTRIES: usize = 4096;

/// The numbers of two bytes that stand here, the low byte first.
fn numbers(bytes: &[u8]) -> Vec<usize> {
    bytes.chunks(2).map(|two| two[0] as usize + 256 * two[1] as usize).collect()
}

/// The bytes of an offset or a length, if they are two.
fn two_bytes(number: usize) -> Result<[u8; 2], u64> {
    u8::try_from(number / 256).map(|high| [(number % 256) as u8, high]).or(Err(13))
}

/// The parts of the file that its entries are.
pub fn entries(file: &[u8]) -> Result<Vec<Range<usize>>, u64> {
    let count = file.get(..2).map(|bytes| numbers(bytes)[0]);
    let head = count.filter(|&count| count <= MOST_ENTRIES).map(|count| 2 + 4 * count);
    let Some((head, pairs)) = head.and_then(|head| Some((head, file.get(2..head)?))) else {
        return Err(12);
    };
    let entries: Vec<Range<usize>> = numbers(pairs).chunks(2).map(|pair| pair[0]..pair[0] + pair[1]).collect();
    // The first starts after the pairs, each next where the one before ends, and the file ends where the last does.
    let starts = entries.iter().map(|entry| entry.start).chain([file.len()]);
    let ends = [head].into_iter().chain(entries.iter().map(|entry| entry.end));
    first_refusal(&[(!starts.eq(ends) || entries.iter().any(Range::is_empty), 13)])?;
    Ok(entries)
}

/// The part of the file that the entry of this number is.
pub fn entry(file: &[u8], number: usize) -> Result<Range<usize>, u64> {
    entries(file)?.get(number).cloned().ok_or(14)
}

/// The file of the entries.
pub fn write(contents: &[u8], lengths: &[usize], out: usize) -> Result<Vec<u8>, u64> {
    first_refusal(&[(lengths.len() > MOST_ENTRIES, 12)])?;
    let mut file = two_bytes(lengths.len())?.to_vec();
    let mut rest = contents;
    for &length in lengths {
        let offset = 2 + 4 * lengths.len() + contents.len() - rest.len();
        first_refusal(&[(length == 0 || length > rest.len(), 13)])?;
        rest = &rest[length..];
        file.extend([two_bytes(offset)?, two_bytes(length)?].concat());
    }
    file.extend(contents);
    first_refusal(&[(!rest.is_empty(), 13), (out != file.len(), 10)])?;
    Ok(file)
}
