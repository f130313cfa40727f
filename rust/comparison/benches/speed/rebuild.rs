//! What it costs to rebuild a share of the longest message, and to name a wrong one, beside opening the message from as few
//! parties as there may be.

use super::check::{schemes, shape};
use super::measure::{Program, TURNS};
use super::{Reconstruct, Split};
use comparison::calls;
use comparison::cases::rebuild::RebuildCall;
use comparison::cases::{accepted, parties, Form, Scheme};
use comparison::random::Random;
use gilunavoi::limits::MAX_MESSAGE;
use gilunavoi::raw::{NotRebuilt, Rebuilt};
use std::rc::Rc;

/// A call, over and over, with this answer.
fn program(call: RebuildCall, answer: Rebuilt) -> Program {
    let mut out = vec![0; call.out];
    Program::new(call.out, move || assert_eq!(calls::rebuild(&call, &call.shares, &call.held, &mut out), answer))
}

/// Rebuilds one share from those of so many parties: where it can be, that of one who lends none. The held copy is right, and
/// all of it is compared.
fn from_shares(random: &mut Random, split: &Split, many: u8) -> RebuildCall {
    let (s, shares) = (&split.call.scheme, split.shares.borrow());
    let list = parties(random, s.n, many);
    let party = (1..=s.n).find(|party| !list.contains(party)).unwrap_or(s.n);
    let held = shares.chunks(split.call.share).nth(party as usize - 1).expect("a share");
    RebuildCall::new(s, &shares, list, party).with_held(held.to_vec())
}

/// Opening, and what stands beside it.
struct Line {
    name: String,
    program: Program,
}

/// The first line is the opening.
fn programs(random: &mut Random, split: &Rc<Split>) -> Vec<Line> {
    let s = &split.call.scheme;
    let (n, few) = (s.n, s.n - s.r);
    let opening = Reconstruct::new(split, parties(random, n, few));
    let [from_few, from_all] = [few, n].map(|many| from_shares(random, split, many));
    // All others are left out before the last one is.
    let mut wrong = from_all.clone();
    wrong.damage_share(n as usize - 1, random);
    let named = Err(NotRebuilt { refusal: 18, party: Some(n) });
    let line = |name: String, program| Line { name: format!("    {name}"), program };
    vec![
        line(format!("reconstruct, {few} readers"), Program::new(MAX_MESSAGE, move || opening.by_the_library())),
        line(format!("rebuild from {few} shares"), program(from_few, Ok(0))),
        line(format!("rebuild from {n} shares"), program(from_all, Ok(0))),
        line(format!("name the last of {n} shares"), program(wrong, named)),
    ]
}

/// The lines of a scheme. All its programs take turns.
fn lines(random: &mut Random, scheme: &Scheme) -> String {
    let split = Split::new(random, Form::Padded, scheme, MAX_MESSAGE);
    let mut lines = programs(random, &split);
    for _ in 0..TURNS {
        lines.iter_mut().for_each(|line| line.program.turn());
    }
    let opening = lines[0].program.best();
    let text = |Line { name, program }: &Line| {
        let (best, median, openings) = (program.best() * 1e6, program.median() * 1e6, program.best() / opening);
        format!("{name:42} {best:9.3} {median:9.3} {openings:8.2}\n")
    };
    format!("{}\n{}", shape(scheme), lines.iter().map(text).collect::<String>())
}

pub fn table(random: &mut Random) -> String {
    let [best, median, openings] = ["us: best", "median", "openings"];
    let schemes = [&schemes()[..], &accepted([(16, 8, 2, &[16, 9, 8])])].concat();
    let lines: String = schemes.iter().map(|scheme| lines(random, scheme)).collect();
    format!(
        "a share of a padded message of {MAX_MESSAGE} bytes, rebuilt with a held copy, and a wrong share named: microseconds a\n\
         call, best and median turn, and how many openings from as few parties as there may be take as long\n\
         {:42} {best:>9} {median:>9} {openings:>8}\n{lines}",
        ""
    )
}
