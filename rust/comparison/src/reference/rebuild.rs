//! Rebuilding a share, written from the rules' words and by other means than the proved library. Every byte of a lent share
//! is a linear equation in the bytes of its block and in the keys, and the equations are eliminated: shares agree if what is
//! left over, without an unknown, says 0 = 0 in every block, and the share that is wanted is cut out of a new split of the
//! blocks and keys that were found. The number of blocks is looked for among the accepted messages of both forms, and the
//! party that is named by leaving out each in turn. Speed is no aim, but what depends on the parties alone is done once.

use super::{eliminated, equations, first_refusal, mul, parties_are_bad, shares_of_blocks, sizes, LONGEST_MESSAGE};
use std::cell::RefCell;
use std::collections::HashMap;
use std::rc::Rc;

/// What is answered and the share, or the number of the refusal and the party that stands beside it, or 0.
pub type Rebuilt = Result<(u64, Vec<u8>), (u64, u8)>;

/// A sum of right sides: their places and factors.
type Sum = Vec<(usize, u8)>;

/// The equations of whole shares, eliminated: the sum that each unknown is, and the sums that have to be 0.
struct Solved {
    unknowns: Vec<Sum>,
    left_over: Vec<Sum>,
}

/// The sizes of an accepted scheme, and its counts.
#[derive(Clone, PartialEq)]
struct Shape {
    m: usize,
    b: usize,
    z: u8,
    counts: Vec<u8>,
}

impl Shape {
    fn solve(&self, parties: &[u8]) -> Solved {
        let mut system = equations(self.m, self.z as usize, &self.counts, parties, self.b);
        let (many, unknowns) = (system.len(), self.m + self.b * self.z as usize);
        // Right side i is what stands for the byte of equation i.
        for (i, equation) in system.iter_mut().enumerate() {
            equation.extend((0..many).map(|k| (k == i) as u8));
        }
        let sum =
            |row: Vec<u8>| row.into_iter().skip(unknowns).enumerate().filter(|(_, factor)| *factor != 0).collect();
        let mut unknowns: Vec<Sum> = eliminated(system, unknowns).into_iter().map(sum).collect();
        let left_over = unknowns.split_off(self.m + self.b * self.z as usize);
        Solved { unknowns, left_over }
    }

    /// The same, kept for as long as the scheme is the one that was asked for last.
    fn solved(&self, parties: &[u8]) -> Rc<Solved> {
        type Kept = (Option<Shape>, HashMap<Vec<u8>, Rc<Solved>>);
        thread_local!(static KEPT: RefCell<Kept> = RefCell::default());
        KEPT.with_borrow_mut(|(shape, solved)| {
            if shape.as_ref() != Some(self) {
                *shape = Some(self.clone());
                solved.clear();
            }
            solved.entry(parties.to_vec()).or_insert_with(|| Rc::new(self.solve(parties))).clone()
        })
    }

    /// The blocks and the keys that give all these shares, if there are any.
    fn blocks_and_keys(&self, parties: &[u8], shares: &[u8], blocks: usize) -> Option<(Vec<u8>, Vec<u8>)> {
        let solved = self.solved(parties);
        let (mut string, mut keys) = (Vec::new(), Vec::new());
        for t in 0..blocks {
            // A row of a party stands in its share with all blocks together.
            let value = |sum: &Sum| sum.iter().fold(0, |all, &(i, factor)| all ^ mul(factor, shares[i * blocks + t]));
            if solved.left_over.iter().any(|sum| value(sum) != 0) {
                return None;
            }
            let (bytes, others) = solved.unknowns.split_at(self.m);
            string.extend(bytes.iter().map(value));
            keys.extend(others.iter().map(value));
        }
        Some((string, keys))
    }

    /// The one party without which the others agree, or 0.
    fn named(&self, parties: &[u8], shares: &[u8], blocks: usize) -> u8 {
        let share = blocks * self.b;
        let others_agree = |&place: &usize| {
            let (mut parties, mut shares) = (parties.to_vec(), shares.to_vec());
            parties.remove(place);
            shares.drain(place * share..(place + 1) * share);
            self.blocks_and_keys(&parties, &shares, blocks).is_some()
        };
        let places: Vec<usize> = (0..parties.len()).filter(others_agree).collect();
        match places[..] {
            [place] => parties[place],
            _ => 0,
        }
    }
}

/// The number of blocks, so many bytes of each of which make this length, of a message of either form.
fn blocks_of(m: usize, of_a_block: usize, length: usize) -> Result<usize, u64> {
    let mut numbers = (0..=LONGEST_MESSAGE).flat_map(|message| [message.div_ceil(m), message / m + 1]);
    numbers.find(|blocks| blocks * of_a_block == length).ok_or(9)
}

/// The refusals of all but the bytes, or the number of blocks.
fn accepted(
    (n, r, z, counts): (u8, u8, u8, &[u8]),
    parties: &[u8],
    shares: usize,
    party: u8,
    held: usize,
    out: usize,
) -> Result<(Shape, usize), u64> {
    let (m, b) = sizes(n, r, z, counts)?;
    first_refusal(&[
        (parties_are_bad(n, parties), 7),
        (!(1..=n).contains(&party), 7),
        (parties.len() + (r as usize) < n as usize, 17),
    ])?;
    let blocks = blocks_of(m, parties.len() * b, shares)?;
    first_refusal(&[(held != 0 && held != blocks * b, 9), (out != blocks * b, 10)])?;
    Ok((Shape { m, b, z, counts: counts.to_vec() }, blocks))
}

/// In how many bytes the held copy differs from the share of the party, and this share.
#[allow(clippy::too_many_arguments)]
pub fn rebuild(
    n: u8,
    r: u8,
    z: u8,
    counts: &[u8],
    parties: &[u8],
    shares: &[u8],
    party: u8,
    held: &[u8],
    out: usize,
) -> Rebuilt {
    let accepted = accepted((n, r, z, counts), parties, shares.len(), party, held.len(), out);
    let (shape, blocks) = accepted.map_err(|number| (number, 0))?;
    let Some((string, keys)) = shape.blocks_and_keys(parties, shares, blocks) else {
        let enough_to_name = (n - r) as usize + 2;
        return Err((18, if parties.len() < enough_to_name { 0 } else { shape.named(parties, shares, blocks) }));
    };
    let all = shares_of_blocks(n, z, counts, shape.m, &string, &keys);
    let share = all[(party as usize - 1) * out..][..out].to_vec();
    let differing = held.iter().zip(&share).filter(|(byte, right)| byte != right).count();
    Ok((differing as u64, share))
}
