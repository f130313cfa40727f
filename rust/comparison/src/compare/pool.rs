//! The same of splitting with keys from a pool, whose record is held against the other implementation's too.

use super::{written, Agreed, Lent};
use crate::calls;
use crate::cases::{Call, Form};
use crate::random::Random;
use crate::reference::pool::{self, Record};
use gilunavoi::raw::{Answer, KeyPool};

/// A call of the proved library, with a scheme or without one.
pub type Split = fn(&Call, &mut KeyPool, &[u8], &[u8], &mut [u8]) -> Answer;

fn expected(call: &Call, record: Record, message: &[u8], bytes: &[u8]) -> Result<(Vec<u8>, Record), u64> {
    let s = &call.scheme;
    match call.form {
        Form::Earlier => pool::split(record, s.n, s.r, s.z, &s.counts, message, bytes, call.shares),
        Form::Padded => pool::split_padded(record, s.n, s.r, s.z, &s.counts, message, bytes, call.shares),
    }
}

/// Splits with keys from these bytes, and leaves the record as the library does. The shares, or the refusal.
pub fn split_by(
    split: Split,
    call: &Call,
    record: &mut KeyPool,
    message: &[u8],
    bytes: &[u8],
    random: &mut Random,
) -> Result<Vec<u8>, u64> {
    let before = (record.length, record.position);
    let expected = expected(call, before, message, bytes);
    let after = expected.as_ref().map_or(before, |(_, after)| *after);
    let expected = expected.map(|(shares, _)| ((shares.len() / call.scheme.n as usize) as u64, shares));
    // The record stands between others, which have to stay as they are.
    let mut drawn = || (random.below(1000), random.below(1000));
    let (above, below) = (drawn(), drawn());
    let records = |record| [above, record, below].map(|(length, position)| KeyPool { length, position });
    let mut lent = records(before);
    written(call, random, call.shares, &expected, |out| split(call, &mut lent[1], message, bytes, out));
    assert_eq!(lent, records(after), "the record or around it, {call:?}");
    [_, *record, _] = lent;
    expected.map(|(_, shares)| shares)
}

/// Splits a drawn message with keys from drawn bytes, under the record that the call says.
pub fn split(call: &Call, random: &mut Random) -> Agreed {
    let (message, bytes) = (Lent::new(random, call.length), Lent::new(random, call.pool));
    let mut by = |split: Split| {
        let mut record = KeyPool { length: call.pool_length, position: call.pool_position };
        split_by(split, call, &mut record, message.bytes(), bytes.bytes(), random).map(|_| ())
    };
    let agreed = by(calls::split_from_pool);
    if call.scheme.is_default() {
        assert_eq!(by(calls::split_from_pool_default), agreed, "{call:?}");
    }
    agreed
}
