//! Rebuilding a party's share from whole shares of others, and naming a party whose share does not fit.

use super::boundary::{self, SharingRebuild};
use super::unless_refused;

/// The refusal of shares that do not agree, beside which a party may stand.
const DISAGREEMENT: u64 = 18;

/// Why a share was not rebuilt.
#[derive(Clone, Copy, Debug, PartialEq, Eq)]
pub struct NotRebuilt {
    /// The number of the refusal.
    pub refusal: u64,
    /// Beside refusal 18, of shares that do not agree: the one party without whose share the others do, where there is one
    /// and n - r + 2 shares or more were lent.
    pub party: Option<u8>,
}

/// In how many bytes the held copy differs from the share that was rebuilt, or why none was.
pub type Rebuilt = Result<u64, NotRebuilt>;

fn rebuilt(answer: SharingRebuild) -> Rebuilt {
    let SharingRebuild { refusal, differing, party } = answer;
    debug_assert!(refusal == DISAGREEMENT || party == 0, "a party stands beside refusal {DISAGREEMENT} alone");
    let party = (party != 0).then_some(party as u8);
    unless_refused(refusal, differing, 0).map_err(|refusal| NotRebuilt { refusal, party })
}

/// Rebuilds the share of a party into `out`. The shares of the others stand one after another in the order of the list;
/// `held` is a copy that is in doubt, or empty.
///
/// # Errors
///
/// Refusals 1 to 4, 7, 17, 9, 10 and 18, in this order.
#[allow(clippy::too_many_arguments)]
pub fn rebuild(
    n: u8,
    r: u8,
    z: u8,
    counts: &[u8],
    parties: &[u8],
    shares: &[u8],
    party: u8,
    held: &[u8],
    out: &mut [u8],
) -> Rebuilt {
    // SAFETY: pointers of slices, with their lengths; `out` is borrowed mutably, so it overlaps none; none is kept (raw.rs).
    #[rustfmt::skip]
    let answer = unsafe {
        boundary::sharing_rebuild(
            n, r, z, counts.as_ptr(), counts.len(), parties.as_ptr(), parties.len(), shares.as_ptr(), shares.len(),
            party, held.as_ptr(), held.len(), out.as_mut_ptr(), out.len(),
        )
    };
    rebuilt(answer)
}

/// The same in the default scheme.
///
/// # Errors
///
/// Refusals 7, 17, 9, 10 and 18, in this order.
pub fn rebuild_default(parties: &[u8], shares: &[u8], party: u8, held: &[u8], out: &mut [u8]) -> Rebuilt {
    // SAFETY: pointers of slices, with their lengths; `out` is borrowed mutably, so it overlaps none; none is kept (raw.rs).
    #[rustfmt::skip]
    let answer = unsafe {
        boundary::sharing_rebuild_default(
            parties.as_ptr(), parties.len(), shares.as_ptr(), shares.len(),
            party, held.as_ptr(), held.len(), out.as_mut_ptr(), out.len(),
        )
    };
    rebuilt(answer)
}
