//! Ranges of a message, written from the rules' words and by other means than the proved library: the places of the rows
//! taken are collected in a set until it has all that are wanted, and the range is cut out of the whole message. Speed is no
//! aim.

use super::{open_range, rows, sizes};
use std::collections::HashSet;

/// A row: its number, and the places in the block of the bytes that stand in it.
pub type Row = (usize, Vec<usize>);

/// The rows that d readers send of a block, in the order in which they are taken.
pub fn rows_in_order(m: usize, z: u8, counts: &[u8], d: usize) -> Vec<Row> {
    let z = z as usize;
    // Places in place of the bytes, and nothing in place of the keys.
    let block: Vec<Option<usize>> = (0..m).map(Some).collect();
    let mut rows: Vec<_> = rows(z, counts, &block, &vec![None; m * z]).into_iter().enumerate().collect();
    rows.truncate(m / (d - z));
    // The later a row's group is, the fewer coefficients it has. Rows of one group stay as they are.
    rows.sort_by_key(|(_, row)| row.len());
    rows.into_iter().map(|(number, row)| (number, row.into_iter().flatten().collect())).collect()
}

/// The numbers of the rows that are taken for a range of a message in blocks of m bytes.
pub fn rows_taken(order: &[Row], m: usize, (start, range_length): (usize, usize)) -> Vec<usize> {
    let wanted: HashSet<usize> = (start..start + range_length).map(|position| position % m).collect();
    let (mut found, mut taken) = (HashSet::new(), Vec::new());
    for (number, places) in order {
        if wanted.is_subset(&found) {
            break;
        }
        found.extend(places);
        taken.push(*number);
    }
    taken
}

/// The number of prefix bytes in these rows: d readers send each, of every block.
pub fn used(order: &[Row], m: usize, d: usize, length: usize, range: (usize, usize)) -> u64 {
    (d * rows_taken(order, m, range).len() * length.div_ceil(m)) as u64
}

/// The bytes used, and those of the range.
#[allow(clippy::too_many_arguments)]
pub fn reconstruct(
    n: u8,
    r: u8,
    z: u8,
    counts: &[u8],
    length: usize,
    start: usize,
    range_length: usize,
    parties: &[u8],
    prefixes: &[u8],
    out: usize,
) -> Result<(u64, Vec<u8>), u64> {
    let (d, range) = (parties.len(), (start, range_length));
    let bytes = open_range((n, r, z, counts), length, range, parties, prefixes, out)?;
    let (m, _) = sizes(n, r, z, counts)?;
    Ok((used(&rows_in_order(m, z, counts, d), m, d, length, range), bytes))
}
