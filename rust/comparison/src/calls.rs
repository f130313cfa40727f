//! Calls of the proved library with a call's scheme, or with the default one, in its form of message.

use crate::cases::rebuild::RebuildCall;
use crate::cases::{Call, Form};
use gilunavoi::raw::{self, Answer, KeyPool, PaddedAnswer, Rebuilt};

pub fn split(call: &Call, message: &[u8], keys: &[u8], out: &mut [u8]) -> Answer {
    let s = &call.scheme;
    match call.form {
        Form::Earlier => raw::split(s.n, s.r, s.z, &s.counts, message, keys, out),
        Form::Padded => raw::split_padded(s.n, s.r, s.z, &s.counts, message, keys, out),
    }
}

pub fn split_default(call: &Call, message: &[u8], keys: &[u8], out: &mut [u8]) -> Answer {
    match call.form {
        Form::Earlier => raw::split_default(message, keys, out),
        Form::Padded => raw::split_padded_default(message, keys, out),
    }
}

pub fn split_from_pool(call: &Call, pool: &mut KeyPool, message: &[u8], bytes: &[u8], out: &mut [u8]) -> Answer {
    let s = &call.scheme;
    match call.form {
        Form::Earlier => raw::split_from_pool(pool, s.n, s.r, s.z, &s.counts, message, bytes, out),
        Form::Padded => raw::split_padded_from_pool(pool, s.n, s.r, s.z, &s.counts, message, bytes, out),
    }
}

pub fn split_from_pool_default(
    call: &Call,
    pool: &mut KeyPool,
    message: &[u8],
    bytes: &[u8],
    out: &mut [u8],
) -> Answer {
    match call.form {
        Form::Earlier => raw::split_from_pool_default(pool, message, bytes, out),
        Form::Padded => raw::split_padded_from_pool_default(pool, message, bytes, out),
    }
}

pub fn prefix(call: &Call, share: &[u8]) -> Answer {
    let s = &call.scheme;
    match call.form {
        Form::Earlier => raw::prefix(s.n, s.r, s.z, &s.counts, call.length, call.d, share),
        Form::Padded => raw::prefix_padded(s.n, s.r, s.z, &s.counts, call.d, share),
    }
}

pub fn prefix_default(call: &Call, share: &[u8]) -> Answer {
    match call.form {
        Form::Earlier => raw::prefix_default(call.length, call.d, share),
        Form::Padded => raw::prefix_padded_default(call.d, share),
    }
}

/// The bytes used and the message's length, which in the earlier form is the one that was told.
pub fn reconstruct(call: &Call, prefixes: &[u8], out: &mut [u8]) -> PaddedAnswer {
    let (s, parties) = (&call.scheme, &call.parties[..]);
    match call.form {
        Form::Earlier => {
            let used = raw::reconstruct(s.n, s.r, s.z, &s.counts, call.length, parties, prefixes, out);
            used.map(|used| (used, call.length as u64))
        }
        Form::Padded => raw::reconstruct_padded(s.n, s.r, s.z, &s.counts, parties, prefixes, out),
    }
}

pub fn reconstruct_default(call: &Call, prefixes: &[u8], out: &mut [u8]) -> PaddedAnswer {
    match call.form {
        Form::Earlier => {
            let used = raw::reconstruct_default(call.length, &call.parties, prefixes, out);
            used.map(|used| (used, call.length as u64))
        }
        Form::Padded => raw::reconstruct_padded_default(&call.parties, prefixes, out),
    }
}

/// The range of a message of the earlier form.
pub fn reconstruct_range(call: &Call, prefixes: &[u8], out: &mut [u8]) -> Answer {
    let (s, start, range_length) = (&call.scheme, call.start, call.range_length);
    raw::reconstruct_range(s.n, s.r, s.z, &s.counts, call.length, start, range_length, &call.parties, prefixes, out)
}

pub fn reconstruct_range_default(call: &Call, prefixes: &[u8], out: &mut [u8]) -> Answer {
    raw::reconstruct_range_default(call.length, call.start, call.range_length, &call.parties, prefixes, out)
}

/// Rebuilds a share. The bytes of shares and held copy may stand elsewhere than in the call.
pub fn rebuild(call: &RebuildCall, shares: &[u8], held: &[u8], out: &mut [u8]) -> Rebuilt {
    let s = &call.scheme;
    raw::rebuild(s.n, s.r, s.z, &s.counts, &call.parties, shares, call.party, held, out)
}

pub fn rebuild_default(call: &RebuildCall, shares: &[u8], held: &[u8], out: &mut [u8]) -> Rebuilt {
    raw::rebuild_default(&call.parties, shares, call.party, held, out)
}
