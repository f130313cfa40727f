//! Opening a message, or a range of it, from the prefixes of some parties.

use super::lent::sorted;
use super::Scheme;
use crate::raw::ROW_OF_WEIGHTS;
use crate::refusal::length;
use crate::{raw, Refusal};
use std::array::from_fn;

/// A padded message that was opened.
#[derive(Clone, Copy, Debug, PartialEq, Eq, Hash)]
pub struct Opened {
    /// The number of prefix bytes that were used.
    pub used: usize,
    /// The length of the message, with which the output begins.
    pub length: usize,
}

/// The Lagrange basis of some parties: a row for each of them, in the order of their list, and in it a weight for each
/// degree, from 0 on. Rows and weights past the number of parties are 0.
pub type Basis = [[u8; ROW_OF_WEIGHTS]; ROW_OF_WEIGHTS];

impl Scheme {
    /// Opens a padded message from what some parties sent, given as party and prefix in any order. All prefixes were cut for
    /// so many parties as there are here.
    ///
    /// Only the message's end is looked at: a wrong scheme, party or prefix can go unnoticed.
    ///
    /// # Errors
    ///
    /// [`NotACount`](Refusal::NotACount), [`Parties`](Refusal::Parties), [`ShareLength`](Refusal::ShareLength), also of
    /// prefixes that are not equally long, and [`Padding`](Refusal::Padding), in this order.
    pub fn open(&self, prefixes: &[(u8, &[u8])]) -> Result<Vec<u8>, Refusal> {
        let (parties, prefixes) = sorted(prefixes);
        // The refusals that come before that of a length; and only so many prefixes are joined as there may be.
        self.basis(&parties)?;
        let each = self.length_of_each(&prefixes)?;
        // A prefix has m / (d - z) bytes of each block, and each block m.
        let mut message = vec![0; each * (parties.len() - usize::from(self.z))];
        let Opened { length, .. } = self.reconstruct_padded(&parties, &prefixes.concat(), &mut message)?;
        message.truncate(length);
        Ok(message)
    }

    /// Opens a padded message into `out`, which receives whole blocks, the message and its padding. The parties rise, and
    /// their prefixes stand one after another in the same order.
    ///
    /// The library sees the prefixes joined: that each has its length is the caller's to know, as [`open`](Scheme::open)
    /// does. Only the message's end is looked at: a wrong scheme, party or prefix can go unnoticed.
    ///
    /// # Errors
    ///
    /// [`NotACount`](Refusal::NotACount), [`Parties`](Refusal::Parties), [`ShareLength`](Refusal::ShareLength),
    /// [`OutputLength`](Refusal::OutputLength) and [`Padding`](Refusal::Padding), in this order.
    pub fn reconstruct_padded(&self, parties: &[u8], prefixes: &[u8], out: &mut [u8]) -> Result<Opened, Refusal> {
        let (n, r, z, counts) = self.numbers();
        let answer = raw::reconstruct_padded(n, r, z, counts, parties, prefixes, out);
        answer.map(|(used, length)| Opened { used: used as usize, length: length as usize }).map_err(Refusal::given)
    }

    /// Opens a message of so many bytes in the earlier form into `out`. The answer is the number of prefix bytes used.
    /// Prefixes of the right length always open: a false byte is not noticed.
    ///
    /// # Errors
    ///
    /// [`MessageTooLong`](Refusal::MessageTooLong), [`NotACount`](Refusal::NotACount), [`Parties`](Refusal::Parties),
    /// [`ShareLength`](Refusal::ShareLength) and [`OutputLength`](Refusal::OutputLength), in this order.
    pub fn reconstruct(
        &self,
        message_length: usize,
        parties: &[u8],
        prefixes: &[u8],
        out: &mut [u8],
    ) -> Result<usize, Refusal> {
        let (n, r, z, counts) = self.numbers();
        length(raw::reconstruct(n, r, z, counts, message_length, parties, prefixes, out))
    }

    /// Opens a range of a message of so many bytes in the earlier form: the `range_length` bytes from `start` on, as
    /// [`reconstruct`](Scheme::reconstruct) would write them. The answer is the number of prefix bytes in the rows that it
    /// took; it depends on numbers and lengths alone, so that it may be asked for beforehand with any bytes.
    ///
    /// Rows that are not taken may hold anything, so a range can be opened while they are still on their way. That those
    /// which are taken have come is the caller's to know.
    ///
    /// # Errors
    ///
    /// [`MessageTooLong`](Refusal::MessageTooLong), [`NotACount`](Refusal::NotACount), [`Parties`](Refusal::Parties),
    /// [`Range`](Refusal::Range), [`ShareLength`](Refusal::ShareLength) and [`OutputLength`](Refusal::OutputLength), in this
    /// order.
    pub fn reconstruct_range(
        &self,
        message_length: usize,
        start: usize,
        range_length: usize,
        parties: &[u8],
        prefixes: &[u8],
        out: &mut [u8],
    ) -> Result<usize, Refusal> {
        let (n, r, z, counts) = self.numbers();
        length(raw::reconstruct_range(n, r, z, counts, message_length, start, range_length, parties, prefixes, out))
    }

    /// The Lagrange basis of these parties, which rise: row i has the coefficients of the polynomial that is 1 at the i-th
    /// of them and 0 at the others, that of degree 0 first.
    ///
    /// # Errors
    ///
    /// [`NotACount`](Refusal::NotACount) and [`Parties`](Refusal::Parties), in this order.
    pub fn basis(&self, parties: &[u8]) -> Result<Basis, Refusal> {
        let (n, r, z, counts) = self.numbers();
        let weights = raw::basis(n, r, z, counts, parties).map_err(Refusal::given)?;
        Ok(from_fn(|place| from_fn(|degree| weights[ROW_OF_WEIGHTS * place + degree])))
    }
}
