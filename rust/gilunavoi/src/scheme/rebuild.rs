//! Rebuilding a party's share, and finding one that does not fit.

use super::lent::sorted;
use super::Scheme;
use crate::{raw, Refusal};
use std::error::Error;
use std::fmt;

/// A share that was rebuilt into room of its own.
#[derive(Clone, Debug, PartialEq, Eq, Hash)]
pub struct Rebuilt {
    /// The share, exactly as it was split if those that were lent are right.
    pub share: Vec<u8>,
    /// In how many bytes the copy that was lent differs from it: 0 where none was.
    pub differing: usize,
}

/// Why a share was not rebuilt.
#[derive(Clone, Copy, Debug, PartialEq, Eq)]
pub struct NotRebuilt {
    /// The refusal.
    pub refusal: Refusal,
    /// Beside [`Disagreement`](Refusal::Disagreement): the one party without whose share the others agree, where there is
    /// one and n - r + 2 shares or more were lent.
    pub party: Option<u8>,
}

impl fmt::Display for NotRebuilt {
    fn fmt(&self, f: &mut fmt::Formatter) -> fmt::Result {
        self.refusal.fmt(f)?;
        match self.party {
            Some(party) => write!(f, "; that of party {party} does not fit the others, which agree without it"),
            None => Ok(()),
        }
    }
}

/// The words have the refusal's already; the source is for who looks for a [`Refusal`].
impl Error for NotRebuilt {
    fn source(&self) -> Option<&(dyn Error + 'static)> {
        Some(&self.refusal)
    }
}

/// A refusal that names nobody.
impl From<Refusal> for NotRebuilt {
    fn from(refusal: Refusal) -> NotRebuilt {
        NotRebuilt { refusal, party: None }
    }
}

impl Scheme {
    /// Rebuilds the share of a party as [`rebuild`](Scheme::rebuild) does, from whole shares that are given as party and
    /// share in any order, into room of its own.
    ///
    /// ```
    /// use gilunavoi::{Form, Scheme};
    ///
    /// let (scheme, keys) = (Scheme::default(), [7; 12]); // Real keys are drawn at random.
    /// let shares = scheme.split_to_shares(Form::Padded, b"Noon.", &keys)?;
    /// let rebuilt = scheme.rebuild_from(&[(5, &shares[4]), (1, &shares[0]), (3, &shares[2])], 2, None)?;
    /// assert_eq!(rebuilt.share, shares[1]);
    /// # Ok::<(), Box<dyn std::error::Error>>(())
    /// ```
    ///
    /// # Errors
    ///
    /// [`Parties`](Refusal::Parties), [`TooFewShares`](Refusal::TooFewShares), [`ShareLength`](Refusal::ShareLength), also of
    /// shares that are not equally long, and [`Disagreement`](Refusal::Disagreement), in this order.
    pub fn rebuild_from(&self, shares: &[(u8, &[u8])], party: u8, held: Option<&[u8]>) -> Result<Rebuilt, NotRebuilt> {
        let (parties, shares) = sorted(shares);
        // The refusals that come before that of a length: shares of no bytes meet no other.
        self.rebuild(&parties, &[], party, None, &mut [])?;
        let mut share = vec![0; self.length_of_each(&shares)?];
        let differing = self.rebuild(&parties, &shares.concat(), party, held, &mut share)?;
        Ok(Rebuilt { share, differing })
    }

    /// Rebuilds the share of a party into `out`, exactly as it was split, from whole shares of n - r parties or more. These
    /// rise, and their shares stand one after another in the same order; the party may be one of them. The answer is in how
    /// many bytes the copy that it holds, if it is lent, differs from its share. An empty copy is none.
    ///
    /// n - r shares always agree, so a wrong one among them goes unnoticed. Of more, wrong ones are refused as long as n - r
    /// right ones are among them; of n - r + 2 or more the one that is wrong is named, if it is the only one. So to check
    /// shares is to rebuild one of them.
    ///
    /// The library sees the shares joined, so one too long and one too short by as much pass, and make a wrong share: that
    /// each has its length is the caller's to know, as [`rebuild_from`](Scheme::rebuild_from) does.
    ///
    /// # Errors
    ///
    /// [`Parties`](Refusal::Parties), [`TooFewShares`](Refusal::TooFewShares), [`ShareLength`](Refusal::ShareLength),
    /// [`OutputLength`](Refusal::OutputLength) and [`Disagreement`](Refusal::Disagreement), in this order.
    pub fn rebuild(
        &self,
        parties: &[u8],
        shares: &[u8],
        party: u8,
        held: Option<&[u8]>,
        out: &mut [u8],
    ) -> Result<usize, NotRebuilt> {
        let (n, r, z, counts) = self.numbers();
        let answer = raw::rebuild(n, r, z, counts, parties, shares, party, held.unwrap_or(&[]), out);
        answer
            .map(|differing| differing as usize)
            .map_err(|raw::NotRebuilt { refusal, party }| NotRebuilt { refusal: Refusal::given(refusal), party })
    }
}
