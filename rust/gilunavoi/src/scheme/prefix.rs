//! What one party sends.

use super::Scheme;
use crate::refusal::length;
use crate::{raw, Refusal};

impl Scheme {
    /// What one party sends of a padded message when `d` parties are read from: the beginning of its share.
    ///
    /// # Errors
    ///
    /// [`NotACount`](Refusal::NotACount) and [`ShareLength`](Refusal::ShareLength), in this order.
    pub fn prefix_padded<'a>(&self, d: usize, share: &'a [u8]) -> Result<&'a [u8], Refusal> {
        let (n, r, z, counts) = self.numbers();
        Ok(&share[..length(raw::prefix_padded(n, r, z, counts, d, share))?])
    }

    /// The same of a message of so many bytes in the earlier form.
    ///
    /// # Errors
    ///
    /// [`MessageTooLong`](Refusal::MessageTooLong), [`NotACount`](Refusal::NotACount) and
    /// [`ShareLength`](Refusal::ShareLength), in this order.
    pub fn prefix<'a>(&self, message_length: usize, d: usize, share: &'a [u8]) -> Result<&'a [u8], Refusal> {
        let (n, r, z, counts) = self.numbers();
        Ok(&share[..length(raw::prefix(n, r, z, counts, message_length, d, share))?])
    }
}
