//! What the proved libraries are held against, for the tests and benchmarks of this workspace: an implementation of the
//! same rules that shares no code with them, reproducible inputs, shares from before, and calls of both side by side.

pub mod calls;
pub mod cases;
pub mod compare;
pub mod random;
pub mod reference;
pub mod stored;

/// The README's examples are compiled and run with the tests. They stand here and not in the package that they are about, which
/// cargo can pack away from the page.
#[cfg(doctest)]
#[doc = include_str!("../../../README.md")]
struct Readme;
