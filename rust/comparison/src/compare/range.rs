//! The same of ranges of messages of the earlier form.

use super::{lent_prefixes, written, Agreed};
use crate::calls;
use crate::cases::Call;
use crate::random::Random;
use crate::reference::range::{self, used, Row};

/// Opens the call's range, also without a scheme where it is the default.
fn opened(call: &Call, prefixes: &[u8], expected: &Result<(u64, Vec<u8>), u64>, random: &mut Random) {
    written(call, random, call.range, expected, |out| calls::reconstruct_range(call, prefixes, out));
    if call.scheme.is_default() {
        written(call, random, call.range, expected, |out| calls::reconstruct_range_default(call, prefixes, out));
    }
}

pub fn reconstruct(call: &Call, random: &mut Random) -> Agreed {
    let s = &call.scheme;
    let prefixes = lent_prefixes(call, random);
    let (parties, prefixes) = (&call.parties[..], prefixes.bytes());
    let (start, range_length) = (call.start, call.range_length);
    let expected =
        range::reconstruct(s.n, s.r, s.z, &s.counts, call.length, start, range_length, parties, prefixes, call.range);
    opened(call, prefixes, &expected, random);
    expected.map(|_| ())
}

/// Opens the call's range of a message that is known already. Its bytes are no work for the other implementation then, and
/// the order of the rows, which is the same for all ranges, is lent to it.
pub fn of_message(call: &Call, order: &[Row], prefixes: &[u8], message: &[u8], random: &mut Random) {
    let (start, range_length) = (call.start, call.range_length);
    let used = used(order, call.scheme.m, call.d, call.length, (start, range_length));
    opened(call, prefixes, &Ok((used, message[start..][..range_length].to_vec())), random);
}
