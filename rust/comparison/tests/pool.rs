//! Splitting with keys from a pool: runs of calls on one pool, of all kinds and refused ones among them, against the other
//! implementation and against plain splitting; the end of a pool; and records that do not fit.

use comparison::calls::{self, split_from_pool, split_from_pool_default};
use comparison::cases::{self, accepted, all_schemes, length, Call, Form, Scheme, FORMS};
use comparison::compare::pool::{split, split_by};
use comparison::random::Random;
use gilunavoi::limits::{MAX_BLOCK, MAX_MESSAGE, MAX_PARTIES};
use gilunavoi::raw::{Answer, KeyPool};
use gilunavoi::{Pool, Refusal};
use std::collections::{HashMap, VecDeque};

/// One fault for each refusal that there is. For 16 a byte less is lent than the record says; most pools of a run also get
/// too short for some calls.
const FAULTS: [fn(&mut Call); 7] = [
    |c| c.scheme.n = MAX_PARTIES + 1,
    |c| c.scheme.z = 0,
    |c| c.scheme.counts.push(1),
    |c| c.scheme.set(10, 4, 1, vec![10, 9, 8, 6]),
    |c| c.length = MAX_MESSAGE + 1,
    |c| c.pool -= 1,
    |c| c.shares += 1,
];

/// A pool in use.
struct Run {
    bytes: Vec<u8>,
    record: KeyPool,
    /// Those of the bytes that were not taken.
    unused: VecDeque<u8>,
    /// The place of each byte that was taken, and the number of the call that took it.
    taken: HashMap<usize, usize>,
}

impl Run {
    fn new(bytes: Vec<u8>) -> Run {
        let record = KeyPool { length: bytes.len(), position: 0 };
        Run { record, unused: bytes.iter().copied().collect(), bytes, taken: HashMap::new() }
    }

    fn left(&self) -> usize {
        self.record.length - self.record.position
    }

    /// An accepted call, if enough bytes are left.
    fn call(&self, random: &mut Random, form: Form, scheme: &Scheme, length: usize) -> Call {
        let KeyPool { length: pool_length, position: pool_position } = self.record;
        Call { pool: pool_length, pool_length, pool_position, ..Call::drawn(random, form, scheme, length) }
    }

    /// A call of any kind.
    fn drawn_call(&self, random: &mut Random) -> Call {
        let scheme = if random.below(4) == 0 { Scheme::default() } else { Scheme::drawn(random, 60) };
        let (form, length) = (FORMS[random.below(2)], random.below(2 * scheme.m + 1));
        let mut call = self.call(random, form, &scheme, length);
        for _ in 0..random.below(6).saturating_sub(3) {
            FAULTS[random.below(FAULTS.len())](&mut call);
        }
        call
    }

    /// Splits, in the default scheme with it or without one. The keys are those that are next in the queue, and the shares
    /// those of plain splitting under these keys.
    fn split(&mut self, number: usize, call: &Call, message: &[u8], random: &mut Random) -> Result<Vec<u8>, u64> {
        let by_default = call.scheme.is_default() && random.below(2) == 0;
        let split = if by_default { split_from_pool_default } else { split_from_pool };
        let position = self.record.position;
        let shares = split_by(split, call, &mut self.record, message, &self.bytes[..call.pool], random)?;
        for place in position..self.record.position {
            assert_eq!(self.taken.insert(place, number), None, "byte {place} is taken again, {call:?}");
        }
        let keys: Vec<u8> = self.unused.drain(..call.keys).collect();
        let mut plain = vec![0; call.shares];
        assert_eq!(calls::split(call, message, &keys, &mut plain), Ok(call.share as u64), "{call:?}");
        assert!(shares == plain, "{call:?}");
        Ok(shares)
    }

    /// Every byte was taken once or is left.
    fn adds_up(&self) {
        assert_eq!(self.taken.len() + self.left(), self.bytes.len());
        assert_eq!(self.unused.len(), self.left());
    }

    /// A byte of the message takes a byte of the pool here: all that are left are taken, and then none is.
    fn emptied(&mut self, number: usize, random: &mut Random) {
        let [scheme] = accepted([(2, 0, 1, &[2])]);
        for (more, refused) in [(1, true), (0, false), (1, true), (0, false)] {
            let call = self.call(random, Form::Earlier, &scheme, self.left() + more);
            let shares = self.split(number, &call, &random.bytes(call.length), random);
            assert_eq!(shares.err(), refused.then_some(16), "{call:?}");
        }
        assert_eq!(self.left(), 0);
        self.adds_up();
    }
}

/// The shares are opened again.
fn opens(call: &Call, message: &[u8], shares: &[u8]) {
    let mut opened = vec![0; call.message];
    let answer = calls::reconstruct(call, &call.sent(shares), &mut opened);
    assert_eq!(answer, Ok((call.prefixes as u64, call.length as u64)), "{call:?}");
    assert!(opened[..call.length] == *message, "{call:?}");
}

/// Forty calls on one pool, counted by refusal. The first accepted one and the last are opened in the end.
fn run(random: &mut Random, outcomes: &mut [usize; 17]) {
    let length = 2 + random.below(2500);
    let mut run = Run::new(random.bytes(length));
    let mut accepted = Vec::new();
    for number in 0..40 {
        let call = run.drawn_call(random);
        let message = random.bytes(call.length);
        let shares = run.split(number, &call, &message, random);
        outcomes[shares.as_ref().err().copied().unwrap_or(0) as usize] += 1;
        accepted.extend(shares.map(|shares| (call, message, shares)));
        run.adds_up();
    }
    let some = accepted.first().into_iter().chain(accepted.last());
    some.for_each(|(call, message, shares)| opens(call, message, shares));
    run.emptied(40, random);
}

#[test]
fn runs() {
    let mut random = Random::new(59);
    let mut outcomes = [0; 17];
    (0..500).for_each(|_| run(&mut random, &mut outcomes));
    println!("500 pools, 20000 calls by refusal: {outcomes:?}");
    assert!(outcomes[0] > 6000);
    let met: Vec<usize> = (1..17).filter(|&number| outcomes[number] > 0).collect();
    assert_eq!(met, [1, 2, 3, 4, 5, 10, 16]);
    assert!(met.iter().all(|&number| outcomes[number] > 300));
}

#[test]
fn drawn_schemes_and_long_messages() {
    let mut random = Random::new(60);
    for case in 0..1000 {
        let scheme = if case % 10 == 0 { Scheme::default() } else { Scheme::drawn(&mut random, MAX_BLOCK) };
        let length = if case % 50 == 0 { MAX_MESSAGE - random.below(2) } else { length(&mut random, scheme.m) };
        for form in FORMS {
            let call = Call::drawn(&mut random, form, &scheme, length).with_drawn_pool(&mut random);
            assert_eq!(split(&call, &mut random), Ok(()));
        }
    }
    println!("1000 messages in both forms");
}

#[test]
fn schemes_of_all_kinds() {
    let mut random = Random::new(61);
    let mut schemes = 0;
    // Every fifth, for the time that it takes.
    for scheme in all_schemes().iter().step_by(5) {
        let (form, length) = (FORMS[schemes % 2], random.below(scheme.m + 1));
        let call = Call::drawn(&mut random, form, scheme, length).with_drawn_pool(&mut random);
        assert_eq!(split(&call, &mut random), Ok(()));
        schemes += 1;
    }
    println!("{schemes} schemes");
    assert!(schemes > 10_000);
}

/// Hands on calls of short messages in schemes of many shapes. In the earlier form the empty message takes no byte.
fn short_messages(random: &mut Random, mut to: impl FnMut(&Call, &mut Random)) {
    for scheme in cases::schemes() {
        for form in FORMS {
            for length in [0, 1, scheme.m, scheme.m + 1] {
                to(&Call::drawn(random, form, &scheme, length), random);
            }
        }
    }
}

/// The last bytes are taken, and from a byte further on there is one too few, or the record is past the end.
#[test]
fn the_end_of_the_pool() {
    let mut random = Random::new(62);
    short_messages(&mut random, |call, random| {
        let mut at = |pool_position, pool| {
            let call = Call { pool, pool_length: pool, pool_position, ..call.clone() };
            split(&call, random)
        };
        for before in [0, 1, 1000] {
            let pool = before + call.keys;
            assert_eq!(at(before, pool), Ok(()), "{call:?}");
            assert_eq!(at(before, pool + 1), Ok(()), "{call:?}");
            assert_eq!(at(before + 1, pool), Err(16), "{call:?}");
            assert_eq!(at(pool + 1, pool), Err(16), "{call:?}");
            if pool > 0 {
                assert_eq!(at(before, pool - 1), Err(16), "{call:?}");
            }
        }
    });
}

/// Records of another length than the pool's, and records far past its end, which would pass if a sum wrapped around. The
/// output may be wrong besides: that is looked at later.
#[test]
fn records_that_do_not_fit() {
    let mut random = Random::new(63);
    let most = usize::MAX;
    short_messages(&mut random, |call, random| {
        let (keys, pool) = (call.keys, call.keys + 50);
        for (pool_length, pool_position) in [
            (pool - 1, 0),
            (pool + 1, 0),
            (pool + (1 << 32), 0),
            (pool, 1 << 32),
            (pool, 1 << 63),
            (pool, most),
            (pool, (most - keys).saturating_add(1)),
            (pool, (most - keys).saturating_add(2)),
            (most, 0),
            (most, most),
            (most, most - keys),
            (1 << 63, 1 << 63),
        ] {
            for shares in [call.shares, call.shares + 1] {
                let call = Call { pool, pool_length, pool_position, shares, ..call.clone() };
                assert_eq!(split(&call, random), Err(16), "{call:?}");
            }
        }
    });
}

/// With the types for other programs, whose scheme is refused before a pool is asked for.
fn by_pool(pool: &mut Pool, call: &Call, by_default: bool, message: &[u8], out: &mut [u8]) -> Answer {
    let Scheme { n, r, z, ref counts, .. } = call.scheme;
    let scheme = if by_default { Ok(gilunavoi::Scheme::default()) } else { gilunavoi::Scheme::new(n, r, z, counts) };
    let form = match call.form {
        Form::Earlier => gilunavoi::Form::Earlier,
        Form::Padded => gilunavoi::Form::Padded,
    };
    let share = scheme.and_then(|scheme| scheme.split_from_pool(form, pool, message, out));
    share.map(|share| share as u64).map_err(Refusal::number)
}

/// The same calls through the type that keeps bytes and record together, stored and resumed now and then.
fn together(random: &mut Random) {
    let mut run = Run::new(random.bytes(2000));
    let mut pool = Pool::new(run.bytes.clone());
    for number in 0..20 {
        // It lends all of its bytes.
        let call = Call { pool: run.bytes.len(), ..run.drawn_call(random) };
        let (message, mut out) = (random.bytes(call.length), vec![0; call.shares]);
        let by_default = call.scheme.is_default() && number % 2 == 0;
        let answer = by_pool(&mut pool, &call, by_default, &message, &mut out);
        let shares = run.split(number, &call, &message, random);
        assert_eq!(answer, shares.as_ref().map(|_| call.share as u64).map_err(|number| *number), "{call:?}");
        assert!(out == shares.unwrap_or(vec![0; call.shares]), "{call:?}");
        assert_eq!((pool.record(), pool.left()), (&run.record, run.left()), "{call:?}");
        if random.below(5) == 0 {
            let &KeyPool { length, position } = pool.record();
            pool = Pool::resumed(run.bytes.clone(), KeyPool { length, position });
        }
    }
}

#[test]
fn bytes_and_record_together() {
    let mut random = Random::new(64);
    (0..200).for_each(|_| together(&mut random));
    println!("200 pools, 4000 calls");
}

/// The rules' examples, from a pool: 5 7 under 9 4, and 5 7 1 under 9 4 2 6. The byte 200 was taken before.
#[test]
fn examples() {
    let mut pool = Pool::resumed(vec![200, 9, 4, 9, 4, 2, 6], KeyPool { length: 7, position: 1 });
    let scheme = gilunavoi::Scheme::new(3, 1, 1, &[3, 2]).expect("scheme A");
    let (earlier, padded) = (gilunavoi::Form::Earlier, gilunavoi::Form::Padded);
    let mut shares = [0; 6];
    assert_eq!(scheme.split_from_pool(earlier, &mut pool, &[5, 7], &mut shares), Ok(2));
    assert_eq!((shares, pool.left()), ([11, 3, 31, 10, 29, 13], 4));
    let mut shares = [0; 12];
    assert_eq!(scheme.split_from_pool(earlier, &mut pool, &[5, 7, 1], &mut shares), Ok(4));
    assert_eq!((&shares[..4], pool.left()), (&[11, 3, 3, 6][..], 0));
    assert_eq!(scheme.split_from_pool(earlier, &mut pool, &[5], &mut shares), Err(Refusal::Pool));
    assert_eq!(scheme.split_from_pool(earlier, &mut pool, &[], &mut []), Ok(0));
    assert_eq!(scheme.split_from_pool(padded, &mut pool, &[], &mut shares), Err(Refusal::Pool));
    assert_eq!(pool.record(), &KeyPool { length: 7, position: 7 });
    // A position past the end was stored, or not all bytes.
    for (length, position) in [(2, 3), (3, 0)] {
        let mut unfit = Pool::resumed(vec![9, 4], KeyPool { length, position });
        let refused = scheme.split_from_pool(earlier, &mut unfit, &[], &mut []);
        assert_eq!((unfit.left(), refused), (0, Err(Refusal::Pool)));
    }
}
