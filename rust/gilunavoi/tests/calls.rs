//! The calls with types against those with numbers: the same answers, the same refusals and the same bytes, of drawn calls
//! with some wrong lengths and lists among them.

mod drawn;

use drawn::{Random, FORMS};
use gilunavoi::raw::{self, Answer, KeyPool};
use gilunavoi::{Form, Lengths, NotRebuilt, Opened, Pool, Rebuilt, Refusal, Scheme};
use std::fmt::Debug;

const CALLS: usize = 4000;

fn with_number<T: Debug>(answer: Result<T, Refusal>) -> Result<T, u64> {
    answer.map_err(Refusal::number)
}

fn value(answer: Result<usize, Refusal>) -> Answer {
    with_number(answer.map(|value| value as u64))
}

/// Counts what is accepted, so that the tests are no tests of refusals alone.
struct Accepted(usize);

impl Accepted {
    fn count<T, E>(&mut self, answer: &Result<T, E>) {
        self.0 += usize::from(answer.is_ok());
    }

    fn enough(self) {
        println!("{} of {CALLS} accepted", self.0);
        assert!(self.0 > CALLS / 3 && self.0 < CALLS);
    }
}

/// A message, the lengths that belong to it, and keys.
struct Case {
    scheme: Scheme,
    form: Form,
    message: Vec<u8>,
    lengths: Lengths,
    keys: Vec<u8>,
}

fn case(random: &mut Random) -> Case {
    let form = FORMS[random.below(2)];
    case_of(form, random)
}

fn case_of(form: Form, random: &mut Random) -> Case {
    let scheme = random.scheme();
    let length = random.below(3 * scheme.block());
    let message = random.bytes(length);
    let lengths = scheme.lengths(form, message.len()).expect("a short message");
    Case { scheme, form, message, lengths, keys: random.bytes(lengths.keys) }
}

impl Case {
    fn numbers(&self) -> (u8, u8, u8, &[u8]) {
        let s = &self.scheme;
        (s.n(), s.r(), s.z(), s.counts())
    }

    fn shares(&self) -> Vec<Vec<u8>> {
        self.scheme.split_to_shares(self.form, &self.message, &self.keys).expect("shares")
    }

    /// What each of the parties sends when so many are read from: nothing, where they are no count.
    fn sent_by_each(&self, parties: &[u8]) -> Vec<Vec<u8>> {
        let (shares, d) = (self.shares(), parties.len());
        let cut = |share| match self.form {
            Form::Padded => self.scheme.prefix_padded(d, share),
            Form::Earlier => self.scheme.prefix(self.message.len(), d, share),
        };
        // Party 0, which there is not, sends what the first one does.
        let share = |party: u8| &shares[usize::from(party.max(1)) - 1];
        parties.iter().map(|party| cut(share(*party)).unwrap_or(&[]).to_vec()).collect()
    }

    fn sent(&self, parties: &[u8]) -> Vec<u8> {
        self.sent_by_each(parties).concat()
    }
}

/// Of another length now and then: bytes are left out or put in at the end.
fn about(random: &mut Random, mut bytes: Vec<u8>) -> Vec<u8> {
    let length = random.about(bytes.len());
    bytes.resize(length, 0);
    bytes
}

#[test]
fn splitting() {
    let (mut random, mut accepted) = (Random(1), Accepted(0));
    for _ in 0..CALLS {
        let case = case(&mut random);
        let ((n, r, z, counts), message) = (case.numbers(), &case.message[..]);
        let (keys, mut out) = (about(&mut random, case.keys.clone()), vec![1; random.about(case.lengths.output)]);
        let mut other = out.clone();
        let answer = value(case.scheme.split(case.form, message, &keys, &mut out));
        let expected = match case.form {
            Form::Padded => raw::split_padded(n, r, z, counts, message, &keys, &mut other),
            Form::Earlier => raw::split(n, r, z, counts, message, &keys, &mut other),
        };
        assert_eq!((answer, &out), (expected, &other));
        accepted.count(&answer);
        let parts = with_number(case.scheme.split_to_shares(case.form, message, &keys));
        match answer {
            Ok(share) => {
                assert_eq!(share as usize, case.lengths.share);
                let parts = parts.expect("the same");
                assert_eq!(parts.len(), usize::from(n));
                assert!(parts.iter().all(|part| part.len() == case.lengths.share));
                assert_eq!(parts.concat(), out);
            }
            Err(10) => assert!(parts.is_ok()),
            Err(number) => assert_eq!(parts, Err(number)),
        }
    }
    accepted.enough();
}

#[test]
fn splitting_from_pools() {
    let (mut random, mut accepted) = (Random(2), Accepted(0));
    let (mut bytes, mut record, mut pool) = (Vec::new(), KeyPool { length: 0, position: 0 }, Pool::new(Vec::new()));
    for _ in 0..CALLS {
        // Now and then a pool of fresh keys, of which some were taken, and some may be lost.
        if record.length <= record.position || random.below(20) == 0 {
            let length = 1 + random.below(4000);
            bytes = random.bytes(length);
            let (length, position) = (random.about(length), random.below(20));
            record = KeyPool { length, position };
            pool = Pool::resumed(bytes.clone(), KeyPool { length, position });
        }
        let case = case(&mut random);
        let ((n, r, z, counts), message) = (case.numbers(), &case.message[..]);
        let mut out = vec![1; random.about(case.lengths.output)];
        let mut other = out.clone();
        let answer = value(case.scheme.split_from_pool(case.form, &mut pool, message, &mut out));
        let split = match case.form {
            Form::Padded => raw::split_padded_from_pool,
            Form::Earlier => raw::split_from_pool,
        };
        let expected = split(&mut record, n, r, z, counts, message, &bytes, &mut other);
        assert_eq!((answer, &out, pool.record()), (expected, &other, &record));
        let fits = record.length == bytes.len();
        assert_eq!(pool.left(), if fits { record.length.saturating_sub(record.position) } else { 0 });
        accepted.count(&answer);
    }
    accepted.enough();
}

#[test]
fn prefixes() {
    let (mut random, mut accepted) = (Random(3), Accepted(0));
    for _ in 0..CALLS {
        let case = case(&mut random);
        let ((n, r, z, counts), length) = (case.numbers(), random.about(case.message.len()));
        let share = about(&mut random, case.shares()[0].clone());
        let count = counts[random.below(counts.len())];
        let d = random.about(usize::from(count));
        let (answer, expected) = match case.form {
            Form::Padded => (case.scheme.prefix_padded(d, &share), raw::prefix_padded(n, r, z, counts, d, &share)),
            Form::Earlier => (case.scheme.prefix(length, d, &share), raw::prefix(n, r, z, counts, length, d, &share)),
        };
        // The part itself.
        let part = |bytes: u64| share[..bytes as usize].as_ptr_range();
        assert_eq!(with_number(answer.map(<[u8]>::as_ptr_range)), expected.map(part));
        accepted.count(&answer);
    }
    accepted.enough();
}

#[test]
fn opening() {
    let (mut random, mut accepted) = (Random(4), Accepted(0));
    for _ in 0..CALLS {
        let case = case(&mut random);
        let ((n, r, z, counts), length) = (case.numbers(), case.message.len());
        let parties = random.readers(&case.scheme);
        let prefixes = about(&mut random, case.sent(&parties));
        let mut out = vec![1; random.about(case.lengths.opened)];
        let mut other = out.clone();
        let answer = match case.form {
            Form::Padded => {
                let answer = with_number(case.scheme.reconstruct_padded(&parties, &prefixes, &mut out));
                let expected = raw::reconstruct_padded(n, r, z, counts, &parties, &prefixes, &mut other);
                let numbers = |Opened { used, length }: Opened| (used as u64, length as u64);
                assert_eq!(answer.map(numbers), expected);
                assert!(answer.is_err() || out[..length] == case.message[..]);
                expected.map(|(used, _)| used)
            }
            Form::Earlier => {
                let answer = value(case.scheme.reconstruct(length, &parties, &prefixes, &mut out));
                assert_eq!(answer, raw::reconstruct(n, r, z, counts, length, &parties, &prefixes, &mut other));
                assert!(answer.is_err() || out == case.message);
                answer
            }
        };
        assert_eq!(out, other);
        accepted.count(&answer);
    }
    accepted.enough();
}

#[test]
fn opening_ranges() {
    let (mut random, mut accepted) = (Random(5), Accepted(0));
    for _ in 0..CALLS {
        let case = case_of(Form::Earlier, &mut random);
        let ((n, r, z, counts), length) = (case.numbers(), case.message.len());
        let parties = random.readers(&case.scheme);
        let prefixes = about(&mut random, case.sent(&parties));
        let start = random.below(length + 2);
        let range = random.below((length + 2).saturating_sub(start).max(1));
        let mut out = vec![1; random.about(range)];
        let mut other = out.clone();
        let answer = value(case.scheme.reconstruct_range(length, start, range, &parties, &prefixes, &mut out));
        #[rustfmt::skip]
        let expected = raw::reconstruct_range(n, r, z, counts, length, start, range, &parties, &prefixes, &mut other);
        assert_eq!((answer, &out), (expected, &other));
        assert!(answer.is_err() || out == case.message[start..][..range]);
        accepted.count(&answer);
    }
    accepted.enough();
}

#[test]
fn bases() {
    let (mut random, mut accepted) = (Random(6), Accepted(0));
    for _ in 0..CALLS {
        let scheme = random.scheme();
        let parties = random.readers(&scheme);
        let answer = with_number(scheme.basis(&parties).map(|rows| rows.concat()));
        let expected = raw::basis(scheme.n(), scheme.r(), scheme.z(), scheme.counts(), &parties);
        assert_eq!(answer, expected.map(|weights| weights.to_vec()));
        accepted.count(&answer);
    }
    accepted.enough();
}

#[test]
fn rebuilding() {
    let (mut random, mut accepted) = (Random(7), Accepted(0));
    let mut named = 0;
    for _ in 0..CALLS {
        let case = case(&mut random);
        let ((n, r, z, counts), whole) = (case.numbers(), case.shares());
        let enough = usize::from(n - r);
        let many = enough + random.below(usize::from(r) + 1) - usize::from(random.below(12) == 0);
        let (parties, party) = (random.parties(n, many), random.below(usize::from(n) + 1) as u8);
        let mut shares: Vec<u8> = parties.iter().flat_map(|party| whole[usize::from(*party) - 1].clone()).collect();
        if !shares.is_empty() && random.below(4) == 0 {
            let place = random.below(shares.len());
            shares[place] ^= 1;
        }
        let shares = about(&mut random, shares);
        let held = (random.below(2) == 0).then(|| about(&mut random, whole[0].clone()));
        let mut out = vec![1; random.about(case.lengths.share)];
        let mut other = out.clone();
        let answer = case.scheme.rebuild(&parties, &shares, party, held.as_deref(), &mut out);
        let copy = held.as_deref().unwrap_or(&[]);
        let expected = raw::rebuild(n, r, z, counts, &parties, &shares, party, copy, &mut other);
        let number = |NotRebuilt { refusal, party }| raw::NotRebuilt { refusal: refusal.number(), party };
        assert_eq!((answer.map(|differing| differing as u64).map_err(number), &out), (expected, &other));
        named += usize::from(answer.is_err_and(|not_rebuilt| not_rebuilt.party.is_some()));
        accepted.count(&answer);
    }
    println!("{named} times a party was named");
    assert!(named > 50);
    accepted.enough();
}

/// From parties in any order.
#[test]
fn opening_at_once() {
    let (mut random, mut accepted) = (Random(8), Accepted(0));
    let mut unequal = 0;
    for _ in 0..CALLS {
        let case = case_of(Form::Padded, &mut random);
        let mut parties = random.readers(&case.scheme);
        parties.sort();
        let mut sent = case.sent_by_each(&parties);
        let each = random.about(sent[0].len());
        sent.iter_mut().for_each(|prefix| prefix.resize(each, 0));
        let mut pairs: Vec<(u8, &[u8])> = parties.iter().copied().zip(sent.iter().map(Vec::as_slice)).collect();
        pairs.rotate_left(random.below(parties.len()));
        let answer = case.scheme.open(&pairs);

        let mut out = vec![0; each * parties.len().saturating_sub(usize::from(case.scheme.z()))];
        let opened = case.scheme.reconstruct_padded(&parties, &sent.concat(), &mut out);
        assert_eq!(answer, opened.map(|opened| out[..opened.length].to_vec()));
        accepted.count(&answer);
        if answer.is_ok_and(|message| message == case.message) {
            unequal += check_unequal(&case.scheme, &pairs);
        }
    }
    println!("{unequal} times prefixes of two lengths");
    assert!(unequal > CALLS / 3);
    accepted.enough();
}

/// One prefix longer and one shorter by as much: together they have the right length.
fn check_unequal(scheme: &Scheme, pairs: &[(u8, &[u8])]) -> usize {
    let [(first, one), (second, other), rest @ ..] = pairs else { return 0 };
    let (longer, shorter) = ([one, &[0][..]].concat(), &other[1..]);
    let changed = [&[(*first, &longer[..]), (*second, shorter)][..], rest].concat();
    assert_eq!(scheme.open(&changed), Err(Refusal::ShareLength));
    1
}

/// From parties in any order, against the call that takes the shares joined.
#[test]
fn rebuilding_at_once() {
    let (mut random, mut accepted) = (Random(9), Accepted(0));
    let mut unequal = 0;
    for _ in 0..CALLS {
        let case = case(&mut random);
        let (n, r, whole) = (case.scheme.n(), case.scheme.r(), case.shares());
        let many = usize::from(n - r) + random.below(usize::from(r) + 1) - usize::from(random.below(12) == 0);
        let (mut parties, party) = (random.parties(n, many), random.below(usize::from(n) + 1) as u8);
        let mut shares: Vec<Vec<u8>> = parties.iter().map(|party| whole[usize::from(*party) - 1].clone()).collect();
        if many > 1 && random.below(12) == 0 {
            parties[1] = parties[0];
        }
        let each = random.about(case.lengths.share);
        shares.iter_mut().for_each(|share| share.resize(each, 0));
        if random.below(6) == 0 && each > 0 {
            shares[0][random.below(each)] ^= 1;
        }
        let held = (random.below(2) == 0).then(|| about(&mut random, whole[0].clone()));
        let mut pairs: Vec<(u8, &[u8])> = parties.iter().copied().zip(shares.iter().map(Vec::as_slice)).collect();
        pairs.rotate_left(random.below(parties.len()));
        let answer = case.scheme.rebuild_from(&pairs, party, held.as_deref());

        let mut share = vec![0; each];
        let joined = case.scheme.rebuild(&parties, &shares.concat(), party, held.as_deref(), &mut share);
        assert_eq!(answer, joined.map(|differing| Rebuilt { share, differing }));
        accepted.count(&answer);
        if answer.is_ok() && each > 0 {
            unequal += check_unequal_shares(&case.scheme, &pairs, party);
        }
    }
    println!("{unequal} times shares of two lengths");
    assert!(unequal > CALLS / 4);
    accepted.enough();
}

/// One share longer and one shorter by as much. Joined they have the right length, and n - r of them are taken for shares.
fn check_unequal_shares(scheme: &Scheme, pairs: &[(u8, &[u8])], party: u8) -> usize {
    let [(first, one), (second, other), rest @ ..] = pairs else { return 0 };
    let (longer, shorter) = ([one, &[0][..]].concat(), &other[1..]);
    let mut changed = [&[(*first, &longer[..]), (*second, shorter)][..], rest].concat();
    assert_eq!(scheme.rebuild_from(&changed, party, None), Err(Refusal::ShareLength.into()));
    changed.sort();
    let (parties, shares): (Vec<u8>, Vec<&[u8]>) = changed.into_iter().unzip();
    let joined = scheme.rebuild(&parties, &shares.concat(), party, None, &mut vec![0; one.len()]);
    assert!(joined.is_ok() || parties.len() > usize::from(scheme.n() - scheme.r()));
    1
}

/// Of two refusals that apply the first is answered: the parties, too few, the lengths, then whether the shares agree.
#[test]
fn refusals_of_rebuilding_at_once() {
    let scheme = Scheme::default();
    let shares = scheme.split_to_shares(Form::Padded, b"Noon.", &[7; 12]).expect("shares");
    let rebuild = |parties: &[u8], party: u8, lent: &[&[u8]], held: Option<&[u8]>| {
        let pairs: Vec<(u8, &[u8])> = parties.iter().copied().zip(lent.iter().copied()).collect();
        let NotRebuilt { refusal, party } = scheme.rebuild_from(&pairs, party, held).expect_err("a refusal");
        (refusal, party)
    };
    let (whole, cut, false_one) = (&shares[0][..], &shares[0][1..], &[9; 6][..]);
    let rest = [&shares[1][..], &shares[2], &shares[3]];
    let unequal = [&[cut][..], &rest].concat();
    let wrong = [&[false_one][..], &rest].concat();
    // Parties before all others: twice the same, none of the scheme, and the one to rebuild.
    assert_eq!(rebuild(&[2, 2], 3, &unequal, None), (Refusal::Parties, None));
    assert_eq!(rebuild(&[1, 6], 3, &unequal, None), (Refusal::Parties, None));
    assert_eq!(rebuild(&[1, 2], 6, &unequal, None), (Refusal::Parties, None));
    assert_eq!(rebuild(&[1; 300], 3, &[cut; 300], None), (Refusal::Parties, None));
    assert_eq!(rebuild(&[1, 2], 3, &unequal, None), (Refusal::TooFewShares, None));
    assert_eq!(rebuild(&[], 3, &[], Some(cut)), (Refusal::TooFewShares, None));
    assert_eq!(rebuild(&[1, 2, 3, 4], 5, &unequal, None), (Refusal::ShareLength, None));
    assert_eq!(rebuild(&[1, 2, 3, 4], 5, &[cut; 4], None), (Refusal::ShareLength, None));
    assert_eq!(rebuild(&[1, 2, 3, 4], 5, &wrong, Some(cut)), (Refusal::ShareLength, None));
    assert_eq!(rebuild(&[1, 2, 3, 4], 5, &wrong, Some(whole)), (Refusal::Disagreement, None));
    let all = [&wrong[..], &[&shares[4][..]]].concat();
    assert_eq!(rebuild(&[1, 2, 3, 4, 5], 5, &all, None), (Refusal::Disagreement, Some(1)));
}

#[test]
fn nothing_at_all() {
    let scheme = Scheme::default();
    assert_eq!(scheme.open(&[]), Err(Refusal::NotACount));
    assert_eq!(scheme.open(&[(1, &[]), (2, &[]), (3, &[])]), Err(Refusal::ShareLength));
    assert_eq!(scheme.open(&[(1, &[]), (1, &[]), (3, &[])]), Err(Refusal::Parties));
    assert_eq!(scheme.open(&[(1, &[][..]); 300]), Err(Refusal::NotACount));
    assert_eq!(scheme.split_to_shares(Form::Earlier, &[], &[]), Ok(vec![Vec::new(); 5]));
    assert_eq!(scheme.prefix(0, 3, &[]), Ok(&[][..]));
    assert_eq!(scheme.reconstruct(0, &[1, 2, 3], &[], &mut []), Ok(0));
    assert_eq!(scheme.rebuild(&[1, 2, 3], &[], 4, Some(&[]), &mut []), Ok(0));
    let empty = [(3, &[][..]), (1, &[]), (2, &[])];
    assert_eq!(scheme.rebuild_from(&empty, 4, Some(&[])), Ok(Rebuilt { share: Vec::new(), differing: 0 }));
    assert_eq!(scheme.rebuild_from(&empty, 4, Some(&[7])), Err(Refusal::ShareLength.into()));
}
