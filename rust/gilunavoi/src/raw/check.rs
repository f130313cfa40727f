//! The check of a scheme.

use super::boundary::{self, SharingScheme, SharingTriedScheme};
use super::unless_refused;

/// The block length m and the rows b of a block, or the number of the refusal.
pub type Checked = Result<(u64, u64), u64>;

fn checked(answer: SharingScheme) -> Checked {
    unless_refused(answer.refusal, (answer.block, answer.rows), (0, 0))
}

/// What the check answers, and how many multiples of the first d - z were tried in the search for m. This number stands
/// beside a refusal too; it is 0 on refusals 1 to 3, which come before the search.
pub type CheckedTried = (Checked, u64);

fn checked_tried(answer: SharingTriedScheme) -> CheckedTried {
    let SharingTriedScheme { refusal, block, rows, tried } = answer;
    (checked(SharingScheme { refusal, block, rows }), tried)
}

/// Checks a scheme.
///
/// # Errors
///
/// Refusals 1 to 4.
pub fn check(n: u8, r: u8, z: u8, counts: &[u8]) -> Checked {
    // SAFETY: the pointer of a slice, with its length; it is not kept (raw.rs).
    checked(unsafe { boundary::sharing_check(n, r, z, counts.as_ptr(), counts.len()) })
}

/// The same of the default scheme.
///
/// # Errors
///
/// None: it is accepted.
pub fn check_default() -> Checked {
    checked(boundary::sharing_check_default())
}

/// Checks a scheme, and says how many numbers were tried for its block length. The result stands in the pair: refusals are 1
/// to 4, as of [`check`].
pub fn check_tried(n: u8, r: u8, z: u8, counts: &[u8]) -> CheckedTried {
    // SAFETY: the pointer of a slice, with its length; it is not kept (raw.rs).
    checked_tried(unsafe { boundary::sharing_check_tried(n, r, z, counts.as_ptr(), counts.len()) })
}

/// The same of the default scheme, which is accepted.
pub fn check_tried_default() -> CheckedTried {
    checked_tried(boundary::sharing_check_tried_default())
}
