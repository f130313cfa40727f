//! The lengths that belong to a message, written from the rules' words and by other means than the proved library: the places
//! at which its blocks start are counted, and so are the keys and the values of the rows that a block has, built from their
//! lists. Speed is no aim.

use super::{check, rows, LONGEST_MESSAGE};
use gilunavoi::Lengths;

/// Of a message in the earlier form.
pub fn lengths(n: u8, r: u8, z: u8, counts: &[u8], length: usize) -> Result<Lengths, u64> {
    lengths_of(n, r, z, counts, length, |m| ((0..length).step_by(m).count(), length))
}

/// Of a padded message: the byte after it starts a block too.
pub fn lengths_padded(n: u8, r: u8, z: u8, counts: &[u8], length: usize) -> Result<Lengths, u64> {
    lengths_of(n, r, z, counts, length, |m| {
        let starts = (0..=length).step_by(m);
        (starts.clone().count(), starts.map(|start| start + m).max().unwrap_or(0))
    })
}

/// `form` has the number of blocks of m bytes, and the bytes that are opened.
fn lengths_of(
    n: u8,
    r: u8,
    z: u8,
    counts: &[u8],
    length: usize,
    form: impl Fn(usize) -> (usize, usize),
) -> Result<Lengths, u64> {
    let m = check(n, r, z, counts)?.0 as usize;
    if length > LONGEST_MESSAGE {
        return Err(5);
    }
    let (blocks, opened) = form(m);
    // Where a key stands, and where none does.
    let rows = rows(z as usize, counts, &vec![false; m], &vec![true; m * z as usize]);
    let keys = rows.iter().flatten().filter(|is_key| **is_key).count();
    let all = |of_a_block: usize| (0..blocks).map(|_| of_a_block).sum();
    let share = all(rows.len());
    Ok(Lengths { blocks, keys: all(keys), share, output: (0..n).map(|_| share).sum(), opened })
}
