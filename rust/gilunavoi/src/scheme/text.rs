//! A scheme as it is written: its numbers in a row.

use super::Scheme;
use crate::Refusal;
use std::error::Error;
use std::fmt;
use std::str::FromStr;

/// Why a text is no scheme.
#[derive(Clone, Copy, Debug, PartialEq, Eq)]
#[non_exhaustive]
pub enum ParseSchemeError {
    /// It is not three or more numbers from 0 to 255 with commas between them.
    NotNumbers,
    /// The library does not accept the numbers.
    Refused(Refusal),
}

impl fmt::Display for ParseSchemeError {
    fn fmt(&self, f: &mut fmt::Formatter) -> fmt::Result {
        match self {
            ParseSchemeError::NotNumbers => f.write_str(
                "a scheme is N, R, Z and the counts, numbers from 0 to 255 with commas between them, as in 5,2,2,5,4,3",
            ),
            ParseSchemeError::Refused(refusal) => refusal.fmt(f),
        }
    }
}

/// The words are the refusal's already; the source is for who looks for a [`Refusal`].
impl Error for ParseSchemeError {
    fn source(&self) -> Option<&(dyn Error + 'static)> {
        match self {
            ParseSchemeError::NotNumbers => None,
            ParseSchemeError::Refused(refusal) => Some(refusal),
        }
    }
}

/// A sign is no part of a number here.
fn number(text: &str) -> Option<u8> {
    text.parse().ok().filter(|_| !text.starts_with('+'))
}

impl FromStr for Scheme {
    type Err = ParseSchemeError;

    fn from_str(text: &str) -> Result<Scheme, ParseSchemeError> {
        let numbers = text.split(',').map(number).collect::<Option<Vec<u8>>>();
        match numbers.as_deref() {
            Some([n, r, z, counts @ ..]) => Scheme::new(*n, *r, *z, counts).map_err(ParseSchemeError::Refused),
            _ => Err(ParseSchemeError::NotNumbers),
        }
    }
}

impl fmt::Display for Scheme {
    fn fmt(&self, f: &mut fmt::Formatter) -> fmt::Result {
        write!(f, "{},{},{}", self.n, self.r, self.z)?;
        self.counts.iter().try_for_each(|count| write!(f, ",{count}"))
    }
}
