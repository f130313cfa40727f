//! Splitting with keys from a pool, written from the rules' words and by other means than the proved library: nothing in a
//! record is added or compared but its length with that of the bytes. What was not taken is a part of the bytes, or there is
//! no such part; the keys are cut off its beginning; and where the record stands then is counted from the pool's end.

use super::{filled, padded};

/// The length of a pool, and how many of its bytes were taken.
pub type Record = (usize, usize);

fn split_as(
    whole: fn(&[u8], usize) -> Vec<u8>,
    (length, position): Record,
    scheme: (u8, u8, u8, &[u8]),
    message: &[u8],
    bytes: &[u8],
    out: usize,
) -> Result<(Vec<u8>, Record), u64> {
    let mut left = 0;
    let keys = |number| {
        let unused = if length == bytes.len() { bytes.get(position..) } else { None };
        let (keys, rest) = unused.and_then(|unused| unused.split_at_checked(number)).ok_or(16u64)?;
        left = rest.len();
        Ok(keys)
    };
    let shares = super::split_as(whole, scheme, message, keys, out)?;
    Ok((shares, (length, length - left)))
}

/// The shares of all parties, one after another, and the record after the call.
#[allow(clippy::too_many_arguments)]
pub fn split(
    record: Record,
    n: u8,
    r: u8,
    z: u8,
    counts: &[u8],
    message: &[u8],
    bytes: &[u8],
    out: usize,
) -> Result<(Vec<u8>, Record), u64> {
    split_as(filled, record, (n, r, z, counts), message, bytes, out)
}

/// The same of a padded message.
#[allow(clippy::too_many_arguments)]
pub fn split_padded(
    record: Record,
    n: u8,
    r: u8,
    z: u8,
    counts: &[u8],
    message: &[u8],
    bytes: &[u8],
    out: usize,
) -> Result<(Vec<u8>, Record), u64> {
    split_as(padded, record, (n, r, z, counts), message, bytes, out)
}
