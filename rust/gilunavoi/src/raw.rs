//! The calls with numbers as the C boundary has them, for programs that hand on any scheme: n, r, z and the counts are
//! taken as they are, accepted or not, and a refusal is its number. Who works with a scheme that is known takes
//! [`Scheme`](crate::Scheme) and its methods.
//!
//! Every value is passed on as it is. The library itself refuses what does not fit, with the first number that applies, and
//! then nothing is written; [`Refusal`](crate::Refusal) has the words for the numbers, and `include/sharing.h` says of each
//! call what it answers and refuses. Calls whose names end in `_default` take no scheme and have the default one. Those with
//! `padded` in their names are for padded messages, the others for those of the earlier form, which
//! [`Form`](crate::Form) tells apart.
//!
//! ```
//! use gilunavoi::raw;
//!
//! assert_eq!(raw::check(9, 3, 1, &[9, 8, 7, 6]), Ok((840, 168)));
//! assert_eq!(raw::check(10, 4, 1, &[10, 9, 8, 6]), Err(4));
//! ```

// What the SAFETY comments here and in the files below rest on. The library ends whatever numbers, bytes and lengths it is
// given, and asks of its caller (include/sharing.h): no pointer is NULL; behind each stand as many bytes as the length beside
// it says; nobody changes them during the call; and `out` overlaps nothing that is read. All pointers that are handed over
// here come from slices, each with the length of its own slice. Such a pointer is not NULL, even of an empty slice, and is
// valid for the length. What is borrowed is not changed, and what is borrowed mutably overlaps nothing else that is borrowed,
// as long as the borrow lasts; it lasts for the call, and the library keeps no pointer after it.

use crate::limits::MAX_PARTIES;
use std::fmt::Debug;

/// The room for a basis: as many rows as there may be parties, and a row as many weights.
pub const WEIGHTS: usize = ROW_OF_WEIGHTS * ROW_OF_WEIGHTS;
/// The weights of a row of a basis.
pub const ROW_OF_WEIGHTS: usize = MAX_PARTIES as usize;

pub mod archive;
mod arithmetic;
mod boundary;
mod check;
mod lengths;
mod opening;
mod pool;
mod prefix;
mod rebuild;
mod split;

pub use arithmetic::{add, inverse, mul, mul_by_shifting};
pub use boundary::KeyPool;
pub use check::{check, check_default, check_tried, check_tried_default, Checked, CheckedTried};
pub use lengths::{lengths, lengths_default, lengths_padded, lengths_padded_default};
pub use opening::{
    basis, basis_default, reconstruct, reconstruct_default, reconstruct_padded, reconstruct_padded_default,
    reconstruct_range, reconstruct_range_default, Basis, PaddedAnswer,
};
pub use pool::{split_from_pool, split_from_pool_default, split_padded_from_pool, split_padded_from_pool_default};
pub use prefix::{prefix, prefix_default, prefix_padded, prefix_padded_default};
pub use rebuild::{rebuild, rebuild_default, NotRebuilt, Rebuilt};
pub use split::{split, split_default, split_padded, split_padded_default};

/// The value that a call answers, or the number of its refusal.
pub type Answer = Result<u64, u64>;

fn answer(answer: boundary::SharingAnswer) -> Answer {
    unless_refused(answer.refusal, answer.value, 0)
}

/// What an accepted call answers, or the number of its refusal, which comes alone: with `none` for an answer.
fn unless_refused<T: PartialEq + Debug>(refusal: u64, answer: T, none: T) -> Result<T, u64> {
    if refusal == 0 {
        return Ok(answer);
    }
    debug_assert_eq!(answer, none, "a refusal comes alone");
    Err(refusal)
}
