//! A scheme that was accepted. The calls in it are in the files below.

use crate::limits::{DEFAULT_COUNTS, DEFAULT_N, DEFAULT_R, DEFAULT_Z};
use crate::limits::{FORMER_DEFAULT_COUNTS, FORMER_DEFAULT_N, FORMER_DEFAULT_R, FORMER_DEFAULT_Z};
use crate::{raw, Refusal};

mod form;
mod lengths;
mod lent;
mod opening;
mod prefix;
mod rebuild;
mod split;
mod text;

pub use form::Form;
pub use lengths::Lengths;
pub use opening::{Basis, Opened};
pub use rebuild::{NotRebuilt, Rebuilt};
pub use text::ParseSchemeError;

/// A scheme that the library accepts: n parties, of which r may be absent and z may collude, and a falling list of counts,
/// the numbers of parties from which a message can be opened.
///
/// Nothing in a share tells its scheme: who cuts a prefix or opens a message names the one that it was split in. It is
/// written as its numbers in a row, n, r, z and the counts, and read in the same way:
///
/// ```
/// use gilunavoi::{ParseSchemeError, Refusal, Scheme};
///
/// let scheme: Scheme = "7,4,1,7,4,3".parse()?;
/// assert_eq!((scheme.block(), scheme.rows()), (6, 3));
/// assert_eq!(Scheme::default().to_string(), "5,2,2,5,4,3");
/// assert_eq!("5,2,2".parse::<Scheme>(), Err(ParseSchemeError::Refused(Refusal::Counts)));
/// # Ok::<(), ParseSchemeError>(())
/// ```
#[derive(Clone, Debug, PartialEq, Eq, Hash)]
pub struct Scheme {
    n: u8,
    r: u8,
    z: u8,
    counts: Box<[u8]>,
    block: usize,
    rows: usize,
}

impl Scheme {
    /// The scheme of these numbers.
    ///
    /// # Errors
    ///
    /// [`PartyCount`](Refusal::PartyCount), [`Colluders`](Refusal::Colluders), [`Counts`](Refusal::Counts) and
    /// [`BlockTooLong`](Refusal::BlockTooLong).
    pub fn new(n: u8, r: u8, z: u8, counts: &[u8]) -> Result<Scheme, Refusal> {
        let checked = raw::check(n, r, z, counts).map_err(Refusal::given)?;
        Ok(Scheme::checked(n, r, z, counts, checked))
    }

    fn checked(n: u8, r: u8, z: u8, counts: &[u8], (block, rows): (u64, u64)) -> Scheme {
        Scheme { n, r, z, counts: counts.into(), block: block as usize, rows: rows as usize }
    }

    /// The default before, n 5, r 2, z 1, counts 5, 4, 3, for shares that were split without a scheme at that time. In the
    /// default scheme they would open to other bytes, often without a refusal.
    pub fn former_default() -> Scheme {
        let checked = Scheme::new(FORMER_DEFAULT_N, FORMER_DEFAULT_R, FORMER_DEFAULT_Z, &FORMER_DEFAULT_COUNTS);
        checked.expect("the library accepts its former default scheme")
    }

    /// How many parties there are. They are numbered from 1.
    pub fn n(&self) -> u8 {
        self.n
    }

    /// How many parties may be absent: the shares of any n - r open a message.
    pub fn r(&self) -> u8 {
        self.r
    }

    /// How many parties may put their shares together and learn nothing of a message but its length in blocks.
    pub fn z(&self) -> u8 {
        self.z
    }

    /// The numbers of parties from which a message can be opened, falling. The last one is n - r.
    pub fn counts(&self) -> &[u8] {
        &self.counts
    }

    /// The length of a block of a message in bytes, m.
    pub fn block(&self) -> usize {
        self.block
    }

    /// The rows of a block, b: so many bytes of a share belong to each block.
    pub fn rows(&self) -> usize {
        self.rows
    }

    /// As the calls with numbers take it.
    fn numbers(&self) -> (u8, u8, u8, &[u8]) {
        (self.n, self.r, self.z, &self.counts)
    }
}

/// The scheme of the library's calls without one: n 5, r 2, z 2, counts 5, 4, 3.
impl Default for Scheme {
    fn default() -> Scheme {
        let checked = raw::check_default().expect("the library accepts its default scheme");
        Scheme::checked(DEFAULT_N, DEFAULT_R, DEFAULT_Z, &DEFAULT_COUNTS, checked)
    }
}
