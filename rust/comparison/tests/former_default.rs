//! Shares that were stored under the former default: they come back by naming it. And what comes of them where the parties,
//! the readers or both forget it, since nothing in a share tells its scheme: docs/former-default.md has what is asserted here.

use comparison::calls;
use comparison::cases::rebuild::{shares, RebuildCall};
use comparison::cases::{parties, Call, Form, Scheme, FORMS};
use comparison::random::Random;
use comparison::stored::{KEYS, STORED};
use gilunavoi::limits::MAX_MESSAGE;
use gilunavoi::raw;
use gilunavoi::raw::NotRebuilt;

/// Every list of three, four or five of the five parties.
fn readings() -> Vec<Vec<u8>> {
    let list = |chosen: u32| (1..=5).filter(|party| chosen >> (party - 1) & 1 == 1).collect::<Vec<u8>>();
    (0..32).map(list).filter(|parties| parties.len() >= 3).collect()
}

/// The calls that name the former default cut the right prefixes out of the stored shares, open them, and split the same
/// message into the same shares again.
#[test]
fn stored_shares_come_back() {
    for stored in &STORED {
        let length = stored.message.len();
        for parties in readings() {
            let call = Call::new(stored.form, &Scheme::former_default(), length, parties);
            let prefix = call.prefixes / call.d;
            for share in stored.shares.chunks(call.share) {
                assert_eq!(calls::prefix(&call, share), Ok(prefix as u64));
            }
            let mut opened = vec![0; call.message];
            let answer = calls::reconstruct(&call, &call.sent(stored.shares), &mut opened);
            assert_eq!(answer, Ok((call.prefixes as u64, length as u64)), "{}, {:?}", stored.name, call.parties);
            assert_eq!(&opened[..length], stored.message);
            let mut shares = vec![0; call.shares];
            assert_eq!(calls::split(&call, stored.message, &KEYS[..call.keys], &mut shares), Ok(call.share as u64));
            assert_eq!(shares, stored.shares);
        }
    }
    assert_eq!(readings().len(), 16);
}

/// Who forgets the former default and works in the default scheme.
#[derive(Clone, Copy, Debug, PartialEq)]
enum Forgotten {
    Everybody,
    Readers,
    Parties,
}

use Forgotten::*;

impl Forgotten {
    /// The schemes in which the parties cut and the readers open.
    fn schemes(self) -> [Scheme; 2] {
        match self {
            Everybody => [Scheme::default(), Scheme::default()],
            Readers => [Scheme::former_default(), Scheme::default()],
            Parties => [Scheme::default(), Scheme::former_default()],
        }
    }
}

/// What is opened of the whole shares of a call in the former default, or the number of the first refusal.
fn opened(call: &Call, shares: &[u8], forgotten: Forgotten) -> Result<Vec<u8>, u64> {
    let [cutting, opening] = forgotten.schemes();
    let cutting = Call { scheme: cutting, ..call.clone() };
    let mut sent = Vec::new();
    for &party in &call.parties {
        let share = &shares[(party as usize - 1) * call.share..][..call.share];
        sent.extend(&share[..calls::prefix(&cutting, share)? as usize]);
    }
    let of_a_block = call.d * opening.m / (call.d - opening.z as usize);
    let mut message = match call.form {
        Form::Earlier => vec![0; call.length],
        Form::Padded => vec![0; sent.len() / of_a_block * opening.m],
    };
    let opening = Call { scheme: opening, ..call.clone() };
    let (_, length) = calls::reconstruct(&opening, &sent, &mut message)?;
    message.truncate(length as usize);
    Ok(message)
}

/// The earlier form, the right length told: whatever has a length that fits is opened, and all else is refused, 9.
#[test]
fn lengths_that_fit_in_the_earlier_form() {
    let zeros = vec![0; 3 * MAX_MESSAGE];
    for length in 0..=MAX_MESSAGE {
        for parties in [&[1, 2, 3][..], &[1, 2, 3, 4], &[1, 2, 3, 4, 5]] {
            let call = Call::new(Form::Earlier, &Scheme::former_default(), length, parties.to_vec());
            for forgotten in [Everybody, Readers, Parties] {
                let fits = match (forgotten, call.d) {
                    (Everybody, _) | (Readers | Parties, 3) => length <= 6,
                    (Readers, 5) => length == 0 || (13..=18).contains(&length),
                    _ => length == 0,
                };
                let refusal = opened(&call, &zeros, forgotten).err();
                assert_eq!(refusal, (!fits).then_some(9), "{length}, {parties:?}, {forgotten:?}");
            }
        }
    }
}

/// A wrong length goes unnoticed where it fits: that of as many blocks of 6 as there are blocks of 12.
#[test]
fn a_wrong_length_that_fits() {
    for stored in STORED.iter().filter(|stored| stored.form == Form::Earlier) {
        let length = stored.shares.len() / 5;
        let (three, mut out) = (&stored.shares[..3 * length], vec![0; length]);
        assert_eq!(raw::reconstruct_default(length, &[1, 2, 3], three, &mut out), Ok(three.len() as u64));
        assert_ne!(out[..5], stored.message[..5]);
    }
}

/// What comes of padded messages of this length.
#[derive(Debug, PartialEq)]
enum Outcome {
    Right,
    /// Other bytes, and no refusal.
    Unnoticed,
    /// Refusal 9.
    Length,
    /// Refusal 11, but by chance.
    End,
}

fn outcome(forgotten: Forgotten, d: usize, length: usize) -> Outcome {
    let blocks = length / 12 + 1;
    let unnoticed = |divisor: usize, remainders: &[usize]| match remainders.contains(&(length % divisor)) {
        true => Outcome::Unnoticed,
        false => Outcome::End,
    };
    match (forgotten, d) {
        (Parties, 3) => Outcome::Right,
        (_, 3) => unnoticed(12, &[1, 5, 6, 11]),
        (Everybody, 4) => unnoticed(12, &[1, 2, 5, 6, 10]),
        (Everybody, _) => unnoticed(12, &[1, 2, 3, 5, 6, 7]),
        (Readers, 4) if blocks.is_multiple_of(3) => unnoticed(36, &[35]),
        (Readers, 5) if blocks.is_multiple_of(2) => unnoticed(24, &[21, 22, 23]),
        (Parties, 4) if blocks.is_multiple_of(4) => unnoticed(48, &[46]),
        (Parties, 5) if blocks.is_multiple_of(3) => unnoticed(36, &[28, 29, 30, 31]),
        _ => Outcome::Length,
    }
}

/// Of a padded message nothing but its end is looked at, and for some lengths that comes out as an end in the other scheme
/// too, whatever the message and the keys are.
#[test]
fn padded_messages() {
    let mut random = Random::new(31);
    let (mut without_end, mut by_chance) = (0, 0);
    for case in 0..100_000 {
        let (length, d) = (case % 288, 3 + random.below(3));
        let forgotten = [Everybody, Readers, Parties][random.below(3)];
        let call = Call::new(Form::Padded, &Scheme::former_default(), length, parties(&mut random, 5, d as u8));
        let (message, keys, mut shares) = (random.bytes(length), random.bytes(call.keys), vec![0; call.shares]);
        assert_eq!(calls::split(&call, &message, &keys, &mut shares), Ok(call.share as u64));
        let (answer, expected) = (opened(&call, &shares, forgotten), outcome(forgotten, d, length));
        let words = format!("{length} bytes, {d} readers, {forgotten:?}: {expected:?}");
        match (&answer, &expected) {
            (Ok(opened), Outcome::Right) => assert_eq!(*opened, message, "{words}"),
            (Ok(opened), Outcome::Unnoticed) => assert_ne!(*opened, message, "{words}"),
            (Ok(_), Outcome::End) => by_chance += 1,
            (Err(9), Outcome::Length) => (),
            (Err(11), Outcome::End) => without_end += 1,
            _ => panic!("{words}, and {answer:?}"),
        }
        if let (Ok(opened), Everybody, 5) = (&answer, forgotten, d) {
            let pieces = (0..length).filter(|place| [1, 2, 3, 5, 6, 7].contains(&(place % 12)));
            assert!(pieces.map(|place| message[place]).collect::<Vec<u8>>().starts_with(opened), "{words}");
        }
    }
    println!("{without_end} refused for their end, {by_chance} opened by chance");
    assert!(by_chance > 0 && by_chance < without_end / 100);
}

/// A share is rebuilt in the default scheme from shares of the former default, the right one held: in how many bytes it is
/// another.
fn rebuilt_without_it(random: &mut Random, form: Form, length: usize, many: u8) -> raw::Rebuilt {
    let shares = shares(random, form, &Scheme::former_default(), length);
    let call = RebuildCall::drawn(random, &Scheme::default(), &shares, many);
    let right = &shares[(call.party as usize - 1) * call.out..][..call.out];
    calls::rebuild(&call, &call.shares, right, &mut vec![0; call.out])
}

/// Three shares always pass. More do not agree, but those of the shortest messages, which are right in both schemes, and
/// some of short ones by chance; and of short ones a party is named now and then, though no share is wrong.
#[test]
fn rebuilding_shares() {
    let mut random = Random::new(32);
    let (mut short, mut agreed, mut named) = (0, 0, 0);
    for case in 0..60_000 {
        let (form, length, many) = (FORMS[case % 2], random.below(60), 3 + random.below(3) as u8);
        let answer = rebuilt_without_it(&mut random, form, length, many);
        let same_in_both = if form == Form::Padded { 1 } else { 2 };
        short += (length > same_in_both && length <= 10 && many > 3) as usize;
        assert!(answer.is_ok() || length > same_in_both, "{length} bytes, {form:?}, {many} shares: {answer:?}");
        match answer {
            Ok(differing) if length <= same_in_both => assert_eq!(differing, 0),
            Ok(_) if many == 3 => {}
            Ok(_) if length <= 10 => agreed += 1,
            Err(NotRebuilt { refusal: 18, party: None }) if many > 3 => {}
            Err(NotRebuilt { refusal: 18, party: Some(_) }) if many == 5 && length <= 10 => named += 1,
            _ => panic!("{length} bytes, {form:?}, {many} shares: {answer:?}"),
        }
    }
    println!("of {short} times with short messages {agreed} agreed, and {named} times a party was named");
    assert!(agreed > 0 && named > 0 && agreed + named < short / 50);
}
