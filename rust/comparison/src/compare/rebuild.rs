//! The same of rebuilding a share.

use super::{written, Lent};
use crate::calls;
use crate::cases::rebuild::RebuildCall;
use crate::random::Random;
use crate::reference;
use gilunavoi::raw::{NotRebuilt, Rebuilt};

/// What is answered and the share, or why there is none.
pub type Expected = Result<(u64, Vec<u8>), NotRebuilt>;

/// The refusal of shares that do not agree, with the party that is named, if one is.
pub fn disagreement(party: Option<u8>) -> Expected {
    Err(NotRebuilt { refusal: 18, party })
}

/// Rebuilds, and holds the library to what is known already.
pub fn as_expected(call: &RebuildCall, expected: &Expected, random: &mut Random) {
    let (shares, held) = (Lent::of(random, &call.shares), Lent::of(random, &call.held));
    let (shares, held) = (shares.bytes(), held.bytes());
    written(call, random, call.out, expected, |out| calls::rebuild(call, shares, held, out));
    if call.scheme.is_default() {
        written(call, random, call.out, expected, |out| calls::rebuild_default(call, shares, held, out));
    }
}

/// Rebuilds, and holds the library to the other implementation.
pub fn rebuild(call: &RebuildCall, random: &mut Random) -> Rebuilt {
    let s = &call.scheme;
    let expected = reference::rebuild::rebuild(
        s.n,
        s.r,
        s.z,
        &s.counts,
        &call.parties,
        &call.shares,
        call.party,
        &call.held,
        call.out,
    );
    let expected = expected.map_err(|(refusal, party)| NotRebuilt { refusal, party: Some(party).filter(|&p| p != 0) });
    as_expected(call, &expected, random);
    expected.map(|(differing, _)| differing)
}
