//! How the cost grows with L, n, z and m. Each label says what stays; m moves only with the counts, and z with the number of
//! readers.

use super::measure::Program;
use super::{Reconstruct, Split};
use comparison::cases::{parties, Form, Scheme};
use comparison::random::Random;
use gilunavoi::limits::MAX_MESSAGE;

pub struct Series {
    about: &'static str,
    steps: Vec<Step>,
}

struct Step {
    name: String,
    split: Program,
    reconstruct: Program,
}

impl Series {
    pub fn turn(&mut self) {
        for step in &mut self.steps {
            step.split.turn();
            step.reconstruct.turn();
        }
    }

    pub fn line(&self) -> String {
        let step = |s: &Step| format!("{}: {:.2} / {:.2}", s.name, s.split.best() * 1e6, s.reconstruct.best() * 1e6);
        format!("{}  {}", self.about, self.steps.iter().map(step).collect::<Vec<_>>().join(",  "))
    }
}

fn step(random: &mut Random, name: String, s: &Scheme, length: usize) -> Step {
    let split = Split::new(random, Form::Earlier, s, length);
    let lowest = *s.counts.last().expect("an accepted scheme has counts");
    let reconstruct = Reconstruct::new(&split, parties(random, s.n, lowest));
    Step {
        name,
        split: Program::new(length, move || split.by_the_library()),
        reconstruct: Program::new(length, move || reconstruct.by_the_library()),
    }
}

fn scheme(n: u8, r: u8, z: u8, counts: Vec<u8>) -> Scheme {
    Scheme::new(n, r, z, counts).expect("an accepted scheme")
}

/// Nine parties, and the counts from 9 down to 9, 8, 7 and 6: m is 8, 56, 168 and 840.
fn longer_blocks(random: &mut Random, length: usize) -> Vec<Step> {
    let schemes = [9, 8, 7, 6].map(|low| scheme(9, 9 - low, 1, (low..10).rev().collect()));
    schemes.iter().map(|s| step(random, format!("m {}", s.m), s, length)).collect()
}

pub fn series(random: &mut Random) -> Vec<Series> {
    let lengths = [1, 64, 256, 1024, 4096, MAX_MESSAGE];
    let mut with_length =
        |scheme: Scheme| lengths.map(|length| step(random, format!("L {length}"), &scheme, length)).into();
    let [of_default, of_former] = [Scheme::default(), Scheme::former_default()].map(&mut with_length);
    let with_parties =
        [4, 8, 12, 16].map(|n| step(random, format!("n {n}"), &scheme(n, n - 3, 1, vec![3]), MAX_MESSAGE));
    let with_colluders =
        [1, 2, 4, 8].map(|z| step(random, format!("z {z}"), &scheme(12, 8 - z, z, vec![z + 4]), MAX_MESSAGE));
    vec![
        Series { about: "L, default scheme:", steps: of_default },
        Series { about: "L, former default:", steps: of_former },
        Series { about: "n, z 1, count 3 (m 2), 16 KiB:", steps: with_parties.into() },
        Series { about: "z, n 12, count z + 4 (m 4), 16 KiB:", steps: with_colluders.into() },
        Series { about: "m, n 9, z 1, counts from 9 down, 16 KiB:", steps: longer_blocks(random, MAX_MESSAGE) },
        Series { about: "m, the same, 1 KiB:", steps: longer_blocks(random, 1024) },
    ]
}
