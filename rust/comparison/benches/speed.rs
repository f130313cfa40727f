//! What splitting and reconstructing cost: the proved library in both forms of message, an obvious program with tables, and
//! libgfshare where it is installed; and what archives cost, beside copying. All take turns in one process. What keys from a
//! pool cost, a range of a message, rebuilding a share and the check of a scheme come last, and alone with the arguments
//! `pool`, `range`, `rebuild` and `check`:
//!
//!     cargo bench --offline --manifest-path rust/Cargo.toml --bench speed -- range

use comparison::cases::{parties, Call, Form, Scheme, FORMS};
use comparison::random::Random;
use comparison::{calls, reference};
use gilunavoi::limits::MAX_MESSAGE;
use measure::{Program, Task, TURNS};
use std::cell::RefCell;
use std::hint::black_box;
use std::rc::Rc;
use tables::Tables;

#[path = "speed/archive.rs"]
mod archive;
#[path = "speed/check.rs"]
mod check;
#[cfg(gfshare)]
#[path = "speed/gfshare.rs"]
mod gfshare;
#[path = "speed/growth.rs"]
mod growth;
#[path = "speed/measure.rs"]
mod measure;
#[path = "speed/pool.rs"]
mod pool;
#[path = "speed/range.rs"]
mod range;
#[path = "speed/rebuild.rs"]
mod rebuild;
#[path = "speed/tables.rs"]
mod tables;

/// A message of one form, its keys and its shares. Both programs are held to the same shares.
struct Split {
    call: Call,
    message: Vec<u8>,
    keys: Vec<u8>,
    shares: RefCell<Vec<u8>>,
    tables: Tables,
}

impl Split {
    fn new(random: &mut Random, form: Form, scheme: &Scheme, length: usize) -> Rc<Split> {
        // Nothing about the scheme is known when this is compiled.
        let scheme = black_box(scheme.clone());
        let call = Call::drawn(random, form, &scheme, length);
        let (message, keys) = (random.bytes(length), random.bytes(call.keys));
        let shares = RefCell::new(vec![0; call.shares]);
        let split = Split { message, keys, shares, tables: Tables::new(&scheme), call };
        split.by_the_library();
        let shares = split.shares.replace(vec![0; split.call.shares]);
        split.by_tables();
        assert!(shares == *split.shares.borrow(), "the two programs split alike");
        Rc::new(split)
    }

    fn by_the_library(&self) {
        let answer = calls::split(&self.call, &self.message, &self.keys, &mut self.shares.borrow_mut());
        assert_eq!(answer, Ok(self.call.share as u64));
    }

    /// This program is timed in the earlier form alone. It pads with zeros by itself.
    fn by_tables(&self) {
        let mut out = self.shares.borrow_mut();
        match self.call.form {
            Form::Earlier => self.tables.split(&self.message, &self.keys, &mut out),
            Form::Padded => self.tables.split(&[&self.message[..], &[128]].concat(), &self.keys, &mut out),
        }
    }
}

/// The prefixes of some parties, and the message that is read from them.
struct Reconstruct {
    split: Rc<Split>,
    call: Call,
    prefixes: Vec<u8>,
    basis: Vec<Vec<u8>>,
    message: RefCell<Vec<u8>>,
}

impl Reconstruct {
    fn new(split: &Rc<Split>, parties: Vec<u8>) -> Rc<Reconstruct> {
        let s = &split.call.scheme;
        let call = Call::new(split.call.form, s, split.call.length, parties);
        let prefixes = call.sent(&split.shares.borrow());
        let basis = reference::basis(s.n, s.r, s.z, &s.counts, &call.parties).expect("accepted");
        let message = RefCell::new(vec![0; call.message]);
        let reconstruct = Reconstruct { split: split.clone(), prefixes, basis, message, call };
        for program in [Reconstruct::by_the_library, Reconstruct::by_tables] {
            program(&reconstruct);
            let message = reconstruct.message.replace(vec![0; reconstruct.call.message]);
            assert!(message[..split.message.len()] == split.message, "the message comes back");
        }
        Rc::new(reconstruct)
    }

    fn by_the_library(&self) {
        let answer = calls::reconstruct(&self.call, &self.prefixes, &mut self.message.borrow_mut());
        assert_eq!(answer, Ok((self.call.prefixes as u64, self.call.length as u64)));
    }

    fn by_tables(&self) {
        let mut out = self.message.borrow_mut();
        self.split.tables.reconstruct(&self.call.parties, &self.basis, &self.prefixes, &mut out);
    }
}

/// Splitting, and reconstructing for each count, the same parties in both forms. `matched` are libgfshare's lines for a
/// message of this length.
fn tasks(random: &mut Random, s: &Scheme, length: usize, matched: Option<[usize; 2]>) -> Vec<Task> {
    let [split, padded] = FORMS.map(|form| Split::new(random, form, s, length));
    let (a, b, c) = (split.clone(), split.clone(), padded.clone());
    let mut tasks = vec![Task {
        name: format!("n {}, r {}, z {}, counts {:?}, {length} bytes: split", s.n, s.r, s.z, s.counts),
        program: Program::new(length, move || a.by_the_library()),
        padded: Some(Program::new(length, move || c.by_the_library())),
        tables: Some(Program::new(length, move || b.by_tables())),
        matched: matched.map(|lines| lines[0]),
    }];
    for &d in &s.counts {
        let parties = parties(random, s.n, d);
        let a = Reconstruct::new(&split, parties.clone());
        let (b, c) = (a.clone(), Reconstruct::new(&padded, parties));
        tasks.push(Task {
            name: format!("    reconstruct, {d} readers"),
            program: Program::new(length, move || a.by_the_library()),
            padded: Some(Program::new(length, move || c.by_the_library())),
            tables: Some(Program::new(length, move || b.by_tables())),
            matched: matched.map(|lines| lines[1]),
        });
    }
    tasks
}

#[cfg(gfshare)]
fn tasks_of_gfshare(random: &mut Random, length: usize) -> Vec<Task> {
    let a = Rc::new(RefCell::new(gfshare::Gfshare::new(random.bytes(length), random.bytes(2 * length))));
    a.borrow_mut().split();
    a.borrow_mut().reconstruct();
    assert!(a.borrow().secret == a.borrow().opened, "the secret comes back");
    let b = a.clone();
    let line = |name: String, program| Task { name, program, padded: None, tables: None, matched: None };
    vec![
        line(
            format!("libgfshare, any 3 of 5, {length} bytes: split"),
            Program::new(length, move || a.borrow_mut().split()),
        ),
        line("    reconstruct".into(), Program::new(length, move || b.borrow_mut().reconstruct())),
    ]
}

#[cfg(not(gfshare))]
fn tasks_of_gfshare(_: &mut Random, _: usize) -> Vec<Task> {
    Vec::new()
}

/// The default scheme and the former default, both compared with libgfshare.
fn defaults() -> Vec<Scheme> {
    vec![Scheme::default(), Scheme::former_default()]
}

/// Two of 7 and 10 parties, one of 16, and one with the longest block, of 840 bytes.
fn others() -> Vec<Scheme> {
    let nine = (3..10).rev().collect();
    let others = [(7, 4, 1, vec![7, 4, 3]), (10, 4, 2, vec![10, 8, 6]), (16, 8, 2, vec![16, 9, 8]), (9, 6, 1, nine)];
    others.map(|(n, r, z, counts)| Scheme::new(n, r, z, counts).expect("an accepted scheme")).into()
}

const LEGEND: &str = "\
microseconds a call, best and median turn; message MB a second in the best turn, and of the program with
tables, which has worked out beforehand what depends on the scheme and the readers alone; microseconds of
the same call for padded messages, best turn, and how many times those of the first column; how many times
faster than libgfshare
";

type Table = fn(&mut Random) -> String;

/// The tables that an argument asks for alone.
const LAST_TABLES: [(&str, Table); 4] =
    [("pool", pool::table), ("range", range::table), ("rebuild", rebuild::table), ("check", check::table)];

fn main() {
    let mut random = Random::new(1);
    // Cargo adds an argument of its own.
    for (name, table) in LAST_TABLES {
        if std::env::args().any(|argument| argument == name) {
            return print!("{}", table(&mut random));
        }
    }
    let mut all: Vec<Task> = Vec::new();
    for length in [1, 100, 1 << 10, MAX_MESSAGE] {
        let first = all.len();
        all.extend(tasks_of_gfshare(&mut random, length));
        let matched = (first < all.len()).then_some([first, first + 1]);
        // libgfshare: any 3 of 5 open, 2 learn nothing, a share is as long as the message. So it is in the default scheme; in
        // the former one 1 learns nothing and a share is half as long. Its one opening, from 3, is compared with ours from 5,
        // 4 and 3.
        for scheme in defaults() {
            all.extend(tasks(&mut random, &scheme, length, matched));
        }
        for scheme in others() {
            all.extend(tasks(&mut random, &scheme, length, None));
        }
    }
    let mut series = growth::series(&mut random);
    let mut archives = archive::tasks(&mut random);
    for _ in 0..TURNS {
        all.iter_mut().for_each(Task::turn);
        series.iter_mut().for_each(growth::Series::turn);
        archives.iter_mut().for_each(archive::Tasks::turn);
    }
    print!("{LEGEND}");
    let columns = ["us: best", "median", "MB/s", "tables", "padded", "times", "gfshare"];
    let [best, median, speed, tables, padded, times, gfshare] = columns;
    println!("{:66} {best:>9} {median:>9} {speed:>7} {tables:>7} {padded:>9} {times:>6} {gfshare:>7}", "");
    all.iter().for_each(|task| println!("{}", task.line(&all)));
    println!("\nhow the cost grows, microseconds a call, best turns: split / reconstruct for the lowest count");
    series.iter().for_each(|series| println!("{}", series.line()));
    print!("\n{}", archive::table(&archives));
    LAST_TABLES.iter().for_each(|(_, table)| print!("\n{}", table(&mut random)));
}
