//! Does a branch or an address depend on a secret byte? By hand and on x86-64, under valgrind's memcheck, which
//! complains when a conditional jump or an address depends on bytes that are marked as undefined:
//!
//!     cargo bench --offline --manifest-path rust/Cargo.toml --bench secret_bytes --no-run
//!     valgrind --error-exitcode=1 rust/target/release/deps/secret_bytes-(hash)
//!
//! No complaint is to come. With the argument `control` the product by tables is called too, whose table index is a
//! secret byte, and a complaint has to come.
//!
//! One answer is made of secret bytes and for all to see: where a padded message ends, or that it has no end. The opener
//! reads the whole last block for it and decides on the result alone. So in the run above that one block is not marked in
//! the prefixes that this opener is lent. In another run it is, and then the decision, and nothing besides, is to be
//! complained about:
//!
//!     valgrind rust/target/release/deps/secret_bytes-(hash) end
//!
//! Here the complaints are counted, and the exit status is 0 if each opening had one or two: is there an end, and is it
//! too late? A branch on the bytes themselves would bring more, the longer the block the more of them.
//!
//! So it is of the shares that another is rebuilt from: whether they agree, and who is named where they do not, is for all
//! to see. Of n - r shares, which always agree, nothing is decided. From these a share is rebuilt in the first run, with a
//! held copy, and the number of its bytes that differ is shown when it is known. With more shares, all secret, the decisions
//! are complained about:
//!
//!     valgrind rust/target/release/deps/secret_bytes-(hash) agree
//!
//! The exit status is 0 if no call had more than one complaint for each share that it compared.

use comparison::calls;
use comparison::cases::archive::WriteCall;
use comparison::cases::rebuild::{changed, RebuildCall};
use comparison::cases::{length, parties, Call, Form, Scheme, FORMS};
use comparison::compare::pool::Split;
use comparison::random::Random;
use gilunavoi::raw::{self, archive, KeyPool, NotRebuilt, Rebuilt};
use std::arch::asm;

const MAKE_UNDEFINED: u64 = 0x4d43_0001;
const MAKE_DEFINED: u64 = 0x4d43_0002;
const RUNNING_ON_VALGRIND: u64 = 0x1001;
const COUNT_ERRORS: u64 = 0x1201;

/// Valgrind's client request, instructions that do nothing elsewhere.
fn request(number: u64, bytes: &[u8]) -> u64 {
    let arguments = [number, bytes.as_ptr() as u64, bytes.len() as u64, 0, 0, 0];
    let mut answer = 0u64;
    // SAFETY: the turns of rdi add up to none, and the exchange is one with itself. Under valgrind, the request reads the
    // array and changes what valgrind knows of the bytes, not the bytes.
    unsafe {
        asm!(
            "rol rdi, 3", "rol rdi, 13", "rol rdi, 61", "rol rdi, 51", "xchg rbx, rbx",
            inout("rdx") answer, in("rax") arguments.as_ptr(), inout("rdi") 0u64 => _,
        );
    }
    answer
}

/// The same number, no longer secret.
fn shown(number: u64) -> u64 {
    let bytes = number.to_ne_bytes();
    request(MAKE_DEFINED, &bytes);
    // It has to be read from where it was marked.
    // SAFETY: a reference is valid to be read.
    u64::from_ne_bytes(unsafe { std::ptr::read_volatile(&bytes) })
}

/// What in the prefixes that the padded opener is lent is secret.
#[derive(Clone, Copy, PartialEq)]
enum Secret {
    AllButTheLastBlock,
    All,
}

/// Opens a range of a message of the earlier form: where it starts, and its bytes. There is no call for the padded form.
fn reconstruct_range(call: &Call, prefixes: &[u8], random: &mut Random) -> (usize, Vec<u8>) {
    if call.form == Form::Padded {
        return (0, Vec::new());
    }
    let call = call.with_drawn_range(random);
    let mut range = vec![0; call.range];
    assert!(calls::reconstruct_range(&call, prefixes, &mut range).is_ok());
    (call.start, range)
}

/// Splits a message once more, with the same keys from a pool of secret bytes. Its record is for all to see.
fn split_from_pool(call: &Call, message: &[u8], keys: &[u8], random: &mut Random) -> Vec<u8> {
    let call = call.with_drawn_pool(random);
    let by_default = call.scheme.is_default() && random.below(2) == 0;
    let split: Split = if by_default { calls::split_from_pool_default } else { calls::split_from_pool };
    let (mut bytes, mut shares) = (random.bytes(call.pool), vec![0; call.shares]);
    bytes[call.pool_position..][..call.keys].copy_from_slice(keys);
    request(MAKE_UNDEFINED, &bytes);
    let mut record = KeyPool { length: call.pool_length, position: call.pool_position };
    assert_eq!(split(&call, &mut record, message, &bytes, &mut shares), Ok(call.share as u64));
    assert_eq!(record, KeyPool { length: call.pool, position: call.pool_position + call.keys });
    shares
}

/// Rebuilds a share, and marks what came out as no longer secret. The complaints, and the answer.
fn rebuild(call: &RebuildCall, out: &mut [u8], random: &mut Random) -> (u64, Rebuilt) {
    let by_default = call.scheme.is_default() && random.below(2) == 0;
    let rebuild = if by_default { calls::rebuild_default } else { calls::rebuild };
    let before = request(COUNT_ERRORS, &[]);
    let answer = rebuild(call, &call.shares, &call.held, out);
    let complaints = request(COUNT_ERRORS, &[]) - before;
    for secret in [&call.shares[..], &call.held, out] {
        request(MAKE_DEFINED, secret);
    }
    (complaints, answer.map(shown))
}

/// Rebuilds one of these secret shares from as few of them as there may be, with a copy in which some bytes are others.
fn rebuild_from_few(s: &Scheme, shares: &[u8], random: &mut Random) {
    let mut call = RebuildCall::drawn(random, s, shares, s.n - s.r);
    let share = shares[(call.party as usize - 1) * call.out..][..call.out].to_vec();
    let many = random.below(call.out + 1);
    call.held = changed(random, &share, many);
    let mut out = vec![0; call.out];
    let (_, answer) = rebuild(&call, &mut out, random);
    request(MAKE_DEFINED, &share);
    assert_eq!(answer, Ok(many as u64));
    assert!(out == share);
}

/// Splits a secret message under secret keys, which makes the shares secret, opens it again, and a range of it, and rebuilds
/// a share. The complaints that the opener brought.
fn split_and_reconstruct(call: &Call, secret: Secret, random: &mut Random) -> u64 {
    let (message, keys) = (random.bytes(call.length), random.bytes(call.keys));
    let (mut shares, mut opened) = (vec![0; call.shares], vec![0; call.message]);
    for secret in [&message, &keys] {
        request(MAKE_UNDEFINED, secret);
    }
    assert_eq!(calls::split(call, &message, &keys, &mut shares), Ok(call.share as u64));
    let from_pool = split_from_pool(call, &message, &keys, random);
    assert_eq!(calls::prefix(call, &shares[..call.share]), Ok((call.prefixes / call.d) as u64));
    let prefixes = call.sent(&shares);
    if call.form == Form::Padded && secret == Secret::AllButTheLastBlock {
        // All blocks of a row stand together.
        let blocks = call.message / call.scheme.m;
        prefixes.chunks(blocks).for_each(|row| _ = request(MAKE_DEFINED, &row[blocks - 1..]));
    }
    let before = request(COUNT_ERRORS, &[]);
    let answer = calls::reconstruct(call, &prefixes, &mut opened);
    let complaints = request(COUNT_ERRORS, &[]) - before;
    let answer = answer.map(|(used, length)| (used, shown(length)));
    assert_eq!(answer, Ok((call.prefixes as u64, call.length as u64)));
    let (start, range) = reconstruct_range(call, &prefixes, random);
    rebuild_from_few(&call.scheme, &shares, random);
    for secret in [&message, &keys, &shares, &from_pool, &prefixes, &opened, &range] {
        request(MAKE_DEFINED, secret);
    }
    assert!(shares == from_pool);
    assert!(opened[..call.length] == message);
    assert!(message[start..].starts_with(&range));
    complaints
}

/// Hands on calls for 200 messages, one for every count.
fn calls_of(form: Form, random: &mut Random, mut to: impl FnMut(&Call, &mut Random)) {
    for case in 0..200 {
        let scheme = if case % 4 == 0 { Scheme::default() } else { Scheme::drawn(random, 120) };
        let length = length(random, scheme.m);
        for &d in &scheme.counts {
            let call = Call::new(form, &scheme, length, parties(random, scheme.n, d));
            to(&call, random);
        }
    }
}

/// Writes an archive of secret shares and takes them out again. Their lengths are for all to see.
fn write_and_look_up(count: usize, random: &mut Random) {
    let call = WriteCall::drawn(random, count);
    let mut file = vec![0; call.out()];
    request(MAKE_UNDEFINED, &call.contents);
    assert_eq!(archive::write(&call.contents, &call.lengths, &mut file), Ok(file.len() as u64));
    assert_eq!(archive::count(&file), Ok(count as u64));
    let entries: Vec<&[u8]> = (0..count).map(|number| archive::entry(&file, number).expect("an entry")).collect();
    let entries = entries.concat();
    for secret in [&call.contents, &file, &entries] {
        request(MAKE_DEFINED, secret);
    }
    assert!(entries == call.contents);
}

/// With all bytes secret, the padded opener's decision is complained about, once or twice a call.
fn count_decisions(random: &mut Random) {
    let (mut openings, mut all) = (0, 0);
    calls_of(Form::Padded, random, |call, random| {
        let complaints = split_and_reconstruct(call, Secret::All, random);
        assert!((1..=2).contains(&complaints), "{complaints} complaints, {call:?}");
        openings += 1;
        all += complaints;
    });
    println!("{openings} openings of padded messages, {all} complaints");
}

/// With more shares than n - r, all of them secret, the decisions are complained about: does this share fit? Of all that
/// are given, and where they do not agree, once more without each of them.
fn count_comparisons(random: &mut Random) {
    let (mut calls, mut all) = (0, 0);
    calls_of(Form::Padded, random, |call, random| {
        let s = &call.scheme;
        // Once for each message.
        if call.d != (s.n - s.r) as usize {
            return;
        }
        let (message, keys, mut shares) = (random.bytes(call.length), random.bytes(call.keys), vec![0; call.shares]);
        assert_eq!(calls::split(call, &message, &keys, &mut shares), Ok(call.share as u64));
        for (many, wrong) in (s.n - s.r + 1..=s.n).flat_map(|many| [(many, false), (many, true)]) {
            let mut lent = RebuildCall::drawn(random, s, &shares, many);
            let (spare, place) = (lent.spare() as u64, random.below(many as usize));
            if wrong {
                lent.damage_share(place, random);
            }
            request(MAKE_UNDEFINED, &lent.shares);
            let (complaints, answer) = rebuild(&lent, &mut vec![0; lent.out], random);
            let party = Some(lent.parties[place]).filter(|_| spare >= 2);
            assert_eq!(answer, if wrong { Err(NotRebuilt { refusal: 18, party }) } else { Ok(0) });
            let most = spare + if party.is_some() && wrong { many as u64 * (spare - 1) } else { 0 };
            assert!((1..=most).contains(&complaints), "{complaints} complaints, {lent:?}");
            calls += 1;
            all += complaints;
        }
    });
    println!("{calls} calls with more shares than are needed, {all} complaints");
}

fn main() {
    println!("under valgrind: {}", request(RUNNING_ON_VALGRIND, &[]) == 1);
    let mut random = Random::new(1);
    let argument = std::env::args().nth(1).unwrap_or_default();
    match &argument[..] {
        "end" => return count_decisions(&mut random),
        "agree" => return count_comparisons(&mut random),
        _ => {}
    }
    for form in FORMS {
        calls_of(form, &mut random, |call, random| {
            split_and_reconstruct(call, Secret::AllButTheLastBlock, random);
        });
    }
    println!("200 messages in both forms, split, from a pool too, and opened for every count, in the earlier form also a range,");
    println!("and a share of each rebuilt from as few as there may be");
    (0..100).for_each(|count| write_and_look_up(count, &mut random));
    println!("archives of up to 99 shares, written and taken apart");
    if argument == "control" {
        let secret = random.bytes(1);
        request(MAKE_UNDEFINED, &secret);
        std::hint::black_box(raw::mul(secret[0], 3));
    }
}
