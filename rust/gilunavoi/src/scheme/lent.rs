//! What several parties sent, or keep: party and bytes in any order, for the calls that join them.

use super::{Form, Scheme};
use crate::limits::{MAX_MESSAGE, MAX_PARTIES};
use crate::Refusal;

/// The parties in their order, and what is each one's. One more than there may be is refused as all of them would be, so no
/// more are taken.
pub(super) fn sorted<'a>(lent: &[(u8, &'a [u8])]) -> (Vec<u8>, Vec<&'a [u8]>) {
    let mut sorted = lent[..lent.len().min(usize::from(MAX_PARTIES) + 1)].to_vec();
    sorted.sort_unstable_by_key(|(party, _)| *party);
    sorted.into_iter().unzip()
}

impl Scheme {
    /// The length that all of them have. The library sees them joined: one too long and one too short by as much would pass
    /// there. And what is longer than any share is not joined, since the memory may not be there.
    pub(super) fn length_of_each(&self, lent: &[&[u8]]) -> Result<usize, Refusal> {
        let each = lent.first().map_or(0, |bytes| bytes.len());
        let longest = self.lengths(Form::Padded, MAX_MESSAGE)?.share;
        if each > longest || lent.iter().any(|bytes| bytes.len() != each) {
            return Err(Refusal::ShareLength);
        }
        Ok(each)
    }
}
