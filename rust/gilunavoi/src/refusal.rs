//! The refusals of the library, and the words for them.

use crate::limits::{MAX_BLOCK, MAX_COUNTS, MAX_ENTRIES, MAX_MESSAGE, MAX_OFFSET_OR_LENGTH, MAX_PARTIES};
use crate::raw::Answer;
use std::error::Error;
use std::fmt;

/// Why a call was refused: the first of the call's tests that failed. Nothing was written then.
///
/// Each has a number, which is the same in C and in the program on files. Displayed it says in plain words what was wrong;
/// capital letters stand there for the numbers of a scheme.
///
/// ```
/// use gilunavoi::{Refusal, Scheme};
///
/// let refusal = Scheme::new(5, 2, 3, &[5, 4, 3]).unwrap_err();
/// assert_eq!((refusal, refusal.number()), (Refusal::Colluders, 2));
/// ```
#[derive(Clone, Copy, Debug, PartialEq, Eq, Hash)]
#[non_exhaustive]
pub enum Refusal {
    /// 1: n is below 2 or above 16.
    PartyCount = 1,
    /// 2: z is 0, or r + z is n or more.
    Colluders = 2,
    /// 3: the counts are none or more than 8, do not fall strictly, start above n, or do not end at n - r.
    Counts = 3,
    /// 4: the counts need blocks of more than 840 bytes.
    BlockTooLong = 4,
    /// 5: the message is longer than 16,384 bytes.
    MessageTooLong = 5,
    /// 6: the number of parties that are read from is not one of the counts.
    NotACount = 6,
    /// 7: the parties do not rise strictly, or one is not from 1 to n, the one to rebuild included.
    Parties = 7,
    /// 8: the keys have another length than the message needs.
    KeyLength = 8,
    /// 9: a share, a held copy, or prefixes or shares together have a length that they cannot have.
    ShareLength = 9,
    /// 10: the output has another length than what is written.
    OutputLength = 10,
    /// 11: the prefixes do not end as a padded message does.
    Padding = 11,
    /// 12: an archive has too many entries, or its count or its pairs are cut short.
    ArchiveCount = 12,
    /// 13: an entry of an archive is empty, too long, or not where it has to be, or the file does not end with the last one.
    ArchiveEntries = 13,
    /// 14: no entry of the archive has this number.
    NoSuchEntry = 14,
    /// 15: the range ends after the message.
    Range = 15,
    /// 16: the record of the pool does not fit its bytes, or fewer bytes are left than the message needs.
    Pool = 16,
    /// 17: there are fewer shares than n - r.
    TooFewShares = 17,
    /// 18: the shares do not agree: they are not all shares of one message.
    Disagreement = 18,
}

use Refusal::*;

const ALL: [Refusal; 18] = [
    PartyCount,
    Colluders,
    Counts,
    BlockTooLong,
    MessageTooLong,
    NotACount,
    Parties,
    KeyLength,
    ShareLength,
    OutputLength,
    Padding,
    ArchiveCount,
    ArchiveEntries,
    NoSuchEntry,
    Range,
    Pool,
    TooFewShares,
    Disagreement,
];

impl Refusal {
    /// Its number, from 1 on.
    pub const fn number(self) -> u64 {
        self as u64
    }

    /// The refusal of this number, if there is one.
    pub fn from_number(number: u64) -> Option<Refusal> {
        ALL.into_iter().find(|refusal| refusal.number() == number)
    }

    /// The refusal of a number that the library gave.
    pub(crate) fn given(number: u64) -> Refusal {
        Refusal::from_number(number)
            .unwrap_or_else(|| panic!("the library is of another version: it refused with the unknown number {number}"))
    }
}

/// The length that a call answered, or its refusal.
pub(crate) fn length(answer: Answer) -> Result<usize, Refusal> {
    answer.map(|value| value as usize).map_err(Refusal::given)
}

impl fmt::Display for Refusal {
    fn fmt(&self, f: &mut fmt::Formatter) -> fmt::Result {
        match self {
            PartyCount => write!(f, "the number of parties, N, must be from 2 to {MAX_PARTIES}"),
            Colluders => f.write_str(
                "the number of colluding parties, Z, must be at least 1, and R + Z must be less than N",
            ),
            Counts => write!(
                f,
                "the counts must be 1 to {MAX_COUNTS} falling numbers, the first at most N and the last N - R"
            ),
            BlockTooLong => {
                write!(f, "these counts need blocks of more than {MAX_BLOCK} bytes; take fewer or other counts")
            }
            MessageTooLong => write!(f, "the message is longer than {MAX_MESSAGE} bytes"),
            NotACount => f.write_str("the number of parties that are read from must be one of the scheme's counts"),
            Parties => f.write_str("the parties must be different numbers from 1 to N"),
            KeyLength => f.write_str("the keys have another length than this message needs"),
            ShareLength => f.write_str(
                "a share or prefix has a length that it cannot have in this scheme, or for a message of this length",
            ),
            OutputLength => f.write_str("the room for the result has another length than the result"),
            Padding => write!(
                f,
                "the prefixes do not end as a padded message of at most {MAX_MESSAGE} bytes does: a wrong share, scheme or \
                 party, prefixes for another number of readers, or shares of the earlier form"
            ),
            ArchiveCount => {
                write!(f, "an archive has more than {MAX_ENTRIES} entries, or its count or its pairs are cut short")
            }
            ArchiveEntries => write!(
                f,
                "an entry of an archive has no bytes, does not follow the one before it, or has an offset or a length \
                 above {MAX_OFFSET_OR_LENGTH}, or the last one does not end the file"
            ),
            NoSuchEntry => f.write_str("the archive has no entry of this number"),
            Range => f.write_str("the range ends past the end of the message"),
            Pool => f.write_str(
                "the record of the pool does not fit its keys, or the pool has fewer bytes left than this message needs",
            ),
            TooFewShares => f.write_str("there are fewer shares than N - R"),
            Disagreement => {
                f.write_str("the shares do not agree: they are not all shares of one message, as it was split")
            }
        }
    }
}

impl Error for Refusal {}
