//! Programs that take turns in one process, and what their best and their median turns took.

use std::time::Instant;

pub const TURNS: usize = 300;
const SECONDS_A_TURN: f64 = 0.0002;

/// One program at one task: a message of so many bytes, handled so many times a turn, and the seconds that a call took in
/// each turn.
pub struct Program {
    bytes: usize,
    calls: usize,
    run: Box<dyn FnMut()>,
    seconds: Vec<f64>,
}

impl Program {
    pub fn new(bytes: usize, run: impl FnMut() + 'static) -> Program {
        Program::with_turns_of(SECONDS_A_TURN, bytes, run)
    }

    /// With turns of at least so many seconds.
    pub fn with_turns_of(seconds: f64, bytes: usize, run: impl FnMut() + 'static) -> Program {
        let mut program = Program { bytes, calls: 1, run: Box::new(run), seconds: Vec::new() };
        // Twice, since one turn may have been held up.
        while program.one_turn().min(program.one_turn()) < seconds {
            program.calls *= 2;
        }
        program
    }

    fn one_turn(&mut self) -> f64 {
        let start = Instant::now();
        for _ in 0..self.calls {
            (self.run)();
        }
        start.elapsed().as_secs_f64()
    }

    pub fn turn(&mut self) {
        let seconds = self.one_turn() / self.calls as f64;
        self.seconds.push(seconds);
    }

    pub fn best(&self) -> f64 {
        self.seconds.iter().copied().fold(f64::INFINITY, f64::min)
    }

    pub fn median(&self) -> f64 {
        let mut seconds = self.seconds.clone();
        seconds.sort_by(f64::total_cmp);
        seconds[seconds.len() / 2]
    }

    fn megabytes_a_second(&self) -> f64 {
        self.bytes as f64 / self.best() / 1e6
    }
}

/// A line of the table: a task, the library at it (or libgfshare), the library at it for padded messages, and the obvious
/// program at it. `matched` is the place of libgfshare's line that it is compared with, where there is one.
pub struct Task {
    pub name: String,
    pub program: Program,
    pub padded: Option<Program>,
    pub tables: Option<Program>,
    pub matched: Option<usize>,
}

impl Task {
    pub fn turn(&mut self) {
        self.program.turn();
        for other in [&mut self.padded, &mut self.tables].into_iter().flatten() {
            other.turn();
        }
    }

    /// Microseconds a call, best and median; message MB a second, best turn; the obvious program's; microseconds of the
    /// padded form, and how many times the first; and how many times faster than libgfshare the call is.
    pub fn line(&self, all: &[Task]) -> String {
        let program = &self.program;
        let (best, median) = (program.best() * 1e6, program.median() * 1e6);
        let times = format!("{best:9.3} {median:9.3} {:7.1}", program.megabytes_a_second());
        let tables = self.tables.as_ref().map_or("-".into(), |p| format!("{:.1}", p.megabytes_a_second()));
        let padded = self.padded.as_ref().map_or(["-".into(), "-".into()], |p| {
            [format!("{:.3}", p.best() * 1e6), format!("{:.2}", p.best() / program.best())]
        });
        let ratio = self.matched.map_or(String::new(), |i| format!("{:7.2}", all[i].program.best() / program.best()));
        format!("{:66} {times} {tables:>7} {:>9} {:>6} {ratio}", self.name, padded[0], padded[1])
    }
}
