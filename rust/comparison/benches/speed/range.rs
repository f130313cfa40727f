//! What the first lines of the longest message cost beside the whole of it, and beside an empty range, which takes no row.

use super::check::{schemes, shape};
use super::measure::{Program, TURNS};
use super::{Reconstruct, Split};
use comparison::calls;
use comparison::cases::{parties, Call, Form, Scheme};
use comparison::random::Random;
use gilunavoi::limits::MAX_MESSAGE;
use gilunavoi::raw;
use std::cell::RefCell;
use std::rc::Rc;

const FIRST_LINES: usize = 80;

/// The beginning of a message, opened from the prefixes that the whole of it is opened from.
struct Beginning {
    whole: Rc<Reconstruct>,
    call: Call,
    out: RefCell<Vec<u8>>,
}

impl Beginning {
    fn new(whole: &Rc<Reconstruct>, length: usize) -> Beginning {
        let (call, out) = (whole.call.with_range(0, length), RefCell::new(vec![0; length]));
        let beginning = Beginning { whole: whole.clone(), call, out };
        beginning.open().expect("an accepted call");
        assert!(whole.split.message.starts_with(&beginning.out.borrow()), "the beginning comes back");
        beginning
    }

    fn open(&self) -> raw::Answer {
        calls::reconstruct_range(&self.call, &self.whole.prefixes, &mut self.out.borrow_mut())
    }

    fn program(self) -> Program {
        Program::new(self.call.range_length, move || assert!(self.open().is_ok()))
    }
}

/// The first lines, all of the message, and nothing of it, read by the same parties.
struct Readers {
    many: u8,
    used: u64,
    of: usize,
    programs: [Program; 3],
}

impl Readers {
    fn new(random: &mut Random, split: &Rc<Split>, many: u8) -> Readers {
        let whole = Reconstruct::new(split, parties(random, split.call.scheme.n, many));
        let [first_lines, nothing] = [FIRST_LINES, 0].map(|length| Beginning::new(&whole, length));
        let (used, of) = (first_lines.open().expect("an accepted call"), whole.call.prefixes);
        let all = Program::new(MAX_MESSAGE, move || whole.by_the_library());
        Readers { many, used, of, programs: [first_lines.program(), all, nothing.program()] }
    }

    fn line(&self) -> String {
        let [first_lines, all, nothing] = &self.programs;
        let times = all.best() / first_lines.best();
        let [best, median] = [first_lines.best(), first_lines.median()].map(|seconds| seconds * 1e6);
        let [all, nothing] = [all, nothing].map(|program| program.best() * 1e6);
        let (name, used, of) = (format!("    {} readers", self.many), self.used, self.of);
        format!("{name:42} {used:>7} {of:>7} {best:9.3} {median:9.3} {all:9.3} {times:6.2} {nothing:9.3}\n")
    }
}

/// The lines of a scheme. All its programs take turns.
fn lines(random: &mut Random, scheme: &Scheme) -> String {
    let split = Split::new(random, Form::Earlier, scheme, MAX_MESSAGE);
    let mut readers: Vec<Readers> = scheme.counts.iter().map(|&many| Readers::new(random, &split, many)).collect();
    for _ in 0..TURNS {
        readers.iter_mut().for_each(|readers| readers.programs.iter_mut().for_each(Program::turn));
    }
    let lines: String = readers.iter().map(Readers::line).collect();
    format!("{}\n{lines}", shape(scheme))
}

pub fn table(random: &mut Random) -> String {
    let [used, of, best, median, whole, times, empty] = ["used", "of", "us: best", "median", "whole", "times", "empty"];
    let lines: String = schemes().iter().map(|scheme| lines(random, scheme)).collect();
    format!(
        "the first {FIRST_LINES} of {MAX_MESSAGE} bytes: prefix bytes used, and of how many; microseconds a call, best and\n\
         median turn; of opening the whole message, best turn, and how many times the first; and of an empty range\n\
         {:42} {used:>7} {of:>7} {best:>9} {median:>9} {whole:>9} {times:>6} {empty:>9}\n{lines}",
        ""
    )
}
