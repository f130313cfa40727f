//! What the check of a scheme costs: over every shape that is accepted and every one that is refused for its block length,
//! and beside small calls of which it is a fixed part.

use super::measure::{Program, TURNS};
use super::{Reconstruct, Split};
use comparison::cases::{falling_lists, parties, Form, Scheme};
use comparison::random::Random;
use comparison::{calls, reference};
use gilunavoi::limits::MAX_MESSAGE;
use gilunavoi::raw;
use std::hint::black_box;
use std::rc::Rc;
use std::time::{Duration, Instant};

/// There are over a hundred thousand shapes, so each has short turns, and few of them.
const SECONDS_A_SHORT_TURN: f64 = 0.000_002;
const ROUNDS: usize = 3;

/// How long those that may be the worst are measured again, at the least, each time.
const AGAIN: Duration = Duration::from_millis(30);

type Check = fn(&Scheme);

/// The check, and beside it the one that also answers how many multiples were tried.
const CHECKS: [(&str, Check); 2] = [("check", check), ("check_tried", check_tried)];

fn check(s: &Scheme) {
    _ = black_box(raw::check(s.n, s.r, s.z, &s.counts));
}

fn check_tried(s: &Scheme) {
    _ = black_box(raw::check_tried(s.n, s.r, s.z, &s.counts));
}

fn lengths(s: &Scheme) {
    _ = black_box(raw::lengths_padded(s.n, s.r, s.z, &s.counts, MAX_MESSAGE));
}

pub fn shape(s: &Scheme) -> String {
    format!("n {}, r {}, z {}, counts {:?}", s.n, s.r, s.z, s.counts)
}

/// A check on one shape.
struct OnShape {
    scheme: Rc<Scheme>,
    program: Program,
}

/// A turn of each shape: what holds the machine up for a while meets one round of a shape and not all of them.
fn round(shapes: &mut [OnShape]) {
    for OnShape { program, .. } in shapes {
        // Twice: the first turn fetches what the shapes before have pushed out of the caches.
        program.turn();
        program.turn();
    }
}

/// The same check on all shapes of a kind.
struct OnShapes {
    name: String,
    shapes: Vec<OnShape>,
}

impl OnShapes {
    fn new(name: String, schemes: &[Rc<Scheme>], check: Check) -> OnShapes {
        let on_shape = |scheme: &Rc<Scheme>| {
            let lent = scheme.clone();
            let program = Program::with_turns_of(SECONDS_A_SHORT_TURN, 0, move || check(&lent));
            OnShape { scheme: scheme.clone(), program }
        };
        OnShapes { name, shapes: schemes.iter().map(on_shape).collect() }
    }

    fn mean(&self) -> f64 {
        self.shapes.iter().map(|shape| shape.program.best()).sum::<f64>() / self.shapes.len() as f64
    }

    /// Of so many shapes some were held up in every round, and only seem to be the worst. So the half that seems worse is
    /// measured again, and the worse half of these again, until one is left.
    fn worst(&mut self) -> &OnShape {
        let mut left = &mut self.shapes[..];
        while left.len() > 1 {
            left.sort_by(|a, b| b.program.best().total_cmp(&a.program.best()));
            let half = left.len() / 2;
            left = &mut left[..half];
            let start = Instant::now();
            while start.elapsed() < AGAIN {
                round(left);
            }
        }
        &left[0]
    }

    /// The mean of the best turns of all shapes, and the best turn of the worst of them.
    fn line(&mut self) -> String {
        let (name, mean) = (self.name.clone(), self.mean() * 1e6);
        let worst = self.worst();
        format!("{name:42} {mean:9.3} {:9.3}  {}\n", worst.program.best() * 1e6, shape(&worst.scheme))
    }
}

/// All schemes that are accepted, and all with nothing wrong but a block that is too long, which are refused with 4.
fn accepted_and_refused() -> [Vec<Rc<Scheme>>; 2] {
    let [mut accepted, mut refused] = [Vec::new(), Vec::new()];
    falling_lists(|n, r, z, counts| {
        let answer = reference::check(n, r, z, &counts);
        let scheme = Rc::new(Scheme { n, r, z, counts, m: 0, b: 0 });
        match answer {
            Ok(_) => accepted.push(scheme),
            Err(4) => refused.push(scheme),
            Err(_) => {}
        }
    });
    [accepted, refused]
}

fn on_shapes() -> Vec<OnShapes> {
    let [accepted, refused] = accepted_and_refused();
    let mut all = Vec::new();
    for (kind, schemes) in [("accepted", accepted), ("refused with 4", refused)] {
        let on_these = |(name, check)| OnShapes::new(format!("{} {kind}: {name}", schemes.len()), &schemes, check);
        all.extend(CHECKS.map(on_these));
    }
    all
}

/// The checks of one scheme, and calls that begin with it and have little else to do: those on a message of one byte.
fn small_calls(random: &mut Random, scheme: &Scheme) -> Vec<(String, Program)> {
    let mut programs = Vec::new();
    for (name, check) in CHECKS {
        let scheme = scheme.clone();
        programs.push((format!("    {name}"), Program::new(0, move || check(&scheme))));
    }
    // Of the longest message: the lengths take little more than the check, whatever the message.
    let asked = scheme.clone();
    programs.push(("    lengths, 16,384 bytes".into(), Program::new(0, move || lengths(&asked))));
    let split = Split::new(random, Form::Padded, scheme, 1);
    let lowest = *scheme.counts.last().expect("an accepted scheme has counts");
    let reconstruct = Reconstruct::new(&split, parties(random, scheme.n, lowest));
    let (call, share) = (reconstruct.call.clone(), random.bytes(split.call.share));
    let prefix = move || assert!(calls::prefix(&call, &share).is_ok());
    programs.push(("    prefix, 1 byte".into(), Program::new(1, prefix)));
    programs.push(("    split, 1 byte".into(), Program::new(1, move || split.by_the_library())));
    let name = format!("    reconstruct, 1 byte, {lowest} readers");
    programs.push((name, Program::new(1, move || reconstruct.by_the_library())));
    programs
}

/// The default scheme, and one with the longest block.
pub fn schemes() -> [Scheme; 2] {
    [Scheme::default(), Scheme::new(9, 3, 1, vec![9, 8, 7, 6]).expect("an accepted scheme")]
}

/// All programs of this file take their turns here.
pub fn table(random: &mut Random) -> String {
    let mut on_shapes = on_shapes();
    for _ in 0..ROUNDS {
        on_shapes.iter_mut().for_each(|on_shapes| round(&mut on_shapes.shapes));
    }
    let [mean, worst, best, median] = ["us: mean", "worst", "us: best", "median"];
    let mut table = format!(
        "the check of a scheme, over all shapes of up to 16 parties and 8 counts: microseconds a call, best turn of each\n\
         shape, their mean and the worst\n{:42} {mean:>9} {worst:>9}\n",
        ""
    );
    table.extend(on_shapes.iter_mut().map(OnShapes::line));
    table +=
        &format!("and beside small calls on padded messages, best and median turn\n{:42} {best:>9} {median:>9}\n", "");
    for scheme in schemes() {
        let mut programs = small_calls(random, &scheme);
        for _ in 0..TURNS {
            programs.iter_mut().for_each(|(_, program)| program.turn());
        }
        table += &format!("{}\n", shape(&scheme));
        for (name, program) in &programs {
            table += &format!("{name:42} {:9.3} {:9.3}\n", program.best() * 1e6, program.median() * 1e6);
        }
    }
    table
}
