//! Splitting a message into shares.

use super::{Form, Scheme};
use crate::refusal::length;
use crate::{raw, Lengths, Pool, Refusal};

impl Scheme {
    /// Splits a message. All shares stand in `out` one after another, that of party 1 first. The answer is the length of
    /// one. [`lengths`](Scheme::lengths) says how long keys and output have to be.
    ///
    /// The keys are drawn evenly at random and used for this message only; nothing here can tell.
    ///
    /// # Errors
    ///
    /// [`MessageTooLong`](Refusal::MessageTooLong), [`KeyLength`](Refusal::KeyLength) and
    /// [`OutputLength`](Refusal::OutputLength), in this order.
    pub fn split(&self, form: Form, message: &[u8], keys: &[u8], out: &mut [u8]) -> Result<usize, Refusal> {
        let (n, r, z, counts) = self.numbers();
        let split = match form {
            Form::Padded => raw::split_padded,
            Form::Earlier => raw::split,
        };
        length(split(n, r, z, counts, message, keys, out))
    }

    /// Splits a message as [`split`](Scheme::split) does, with the next keys of a pool, and overwrites them there. A call
    /// that is refused takes none.
    ///
    /// Where the pool is stored, its new [`record`](Pool::record) is to be safe on the disk before a share is handed out.
    ///
    /// # Errors
    ///
    /// [`MessageTooLong`](Refusal::MessageTooLong), [`Pool`](Refusal::Pool) and [`OutputLength`](Refusal::OutputLength), in
    /// this order.
    pub fn split_from_pool(
        &self,
        form: Form,
        pool: &mut Pool,
        message: &[u8],
        out: &mut [u8],
    ) -> Result<usize, Refusal> {
        let (n, r, z, counts) = self.numbers();
        let split = match form {
            Form::Padded => raw::split_padded_from_pool,
            Form::Earlier => raw::split_from_pool,
        };
        length(pool.lend(|record, bytes| split(record, n, r, z, counts, message, bytes, out)))
    }

    /// Splits a message as [`split`](Scheme::split) does into room of its own: the shares, that of party 1 first.
    ///
    /// # Errors
    ///
    /// [`MessageTooLong`](Refusal::MessageTooLong) and [`KeyLength`](Refusal::KeyLength), in this order.
    pub fn split_to_shares(&self, form: Form, message: &[u8], keys: &[u8]) -> Result<Vec<Vec<u8>>, Refusal> {
        let Lengths { share, output, .. } = self.lengths(form, message.len())?;
        let mut shares = vec![0; output];
        self.split(form, message, keys, &mut shares)?;
        // Not by `chunks`: an empty message of the earlier form has shares of no bytes.
        Ok((0..usize::from(self.n)).map(|party| shares[party * share..][..share].to_vec()).collect())
    }
}
