//! Test inputs that more than one test draws: schemes, and calls that are accepted until something in them is changed.

use crate::random::Random;
use crate::reference;
use gilunavoi::limits::*;

pub mod archive;
pub mod faults;
pub mod rebuild;

/// A scheme. One that `new` or `drawn` makes is accepted, with the block length m and the rows b of a block; they stay
/// as they are when a test changes the rest.
#[derive(Clone, Debug)]
pub struct Scheme {
    pub n: u8,
    pub r: u8,
    pub z: u8,
    pub counts: Vec<u8>,
    pub m: usize,
    pub b: usize,
}

impl Scheme {
    /// Nothing where the scheme is refused.
    pub fn new(n: u8, r: u8, z: u8, counts: Vec<u8>) -> Option<Scheme> {
        let (m, b) = reference::check(n, r, z, &counts).ok()?;
        Some(Scheme { n, r, z, counts, m: m as usize, b: b as usize })
    }

    /// One with blocks of at most `longest` bytes.
    pub fn drawn(random: &mut Random, longest: usize) -> Scheme {
        loop {
            let n = 2 + random.below(MAX_PARTIES as usize - 1) as u8;
            let r = random.below(n as usize) as u8;
            let z = 1 + random.below(n as usize) as u8;
            let low = n - r;
            let counts = (low..=n).filter(|&d| d == low || random.below(3) == 0).rev().collect();
            match Scheme::new(n, r, z, counts) {
                Some(scheme) if scheme.m <= longest => return scheme,
                _ => {}
            }
        }
    }

    /// The scheme of shares that were stored under the former default.
    pub fn former_default() -> Scheme {
        let counts = FORMER_DEFAULT_COUNTS.to_vec();
        Scheme::new(FORMER_DEFAULT_N, FORMER_DEFAULT_R, FORMER_DEFAULT_Z, counts).expect("an accepted scheme")
    }

    pub fn is_default(&self) -> bool {
        (self.n, self.r, self.z, &self.counts[..]) == (DEFAULT_N, DEFAULT_R, DEFAULT_Z, &DEFAULT_COUNTS)
    }

    /// Changes all but m and b.
    pub fn set(&mut self, n: u8, r: u8, z: u8, counts: Vec<u8>) {
        *self = Scheme { n, r, z, counts, ..*self };
    }
}

/// The scheme of the forms without one.
impl Default for Scheme {
    fn default() -> Scheme {
        Scheme::new(DEFAULT_N, DEFAULT_R, DEFAULT_Z, DEFAULT_COUNTS.to_vec()).expect("an accepted scheme")
    }
}

/// The schemes of these n, r, z and counts.
pub fn accepted<const MANY: usize>(schemes: [(u8, u8, u8, &[u8]); MANY]) -> [Scheme; MANY] {
    schemes.map(|(n, r, z, counts)| Scheme::new(n, r, z, counts.to_vec()).expect("an accepted scheme"))
}

/// One to three colluding parties and fifteen, neighbouring counts and gaps, blocks of one byte, short ones and the longest.
pub fn schemes() -> Vec<Scheme> {
    let others = accepted([
        (2, 0, 1, &[2]),
        (16, 0, 15, &[16]),
        (7, 4, 1, &[7, 4, 3]),
        (9, 3, 1, &[9, 8, 7, 6]),
        (10, 4, 1, &[10, 6]),
        (6, 2, 2, &[6, 4]),
        (9, 4, 2, &[9, 7, 5]),
        (8, 2, 3, &[8, 6]),
        (12, 4, 3, &[12, 9, 8]),
    ]);
    [&[Scheme::default(), Scheme::former_default()], &others[..]].concat()
}

/// Hands on all accepted sizes n, r and z with every list of counts that falls from at most n to n - r.
pub fn falling_lists(mut to: impl FnMut(u8, u8, u8, Vec<u8>)) {
    for n in 2..=MAX_PARTIES {
        for r in 0..n {
            for z in 1..n - r {
                // Bit i of `chosen`: is n - i a count?
                for chosen in 0..1u32 << r {
                    let above = (n - r + 1..=n).rev().filter(|d| chosen >> (n - d) & 1 == 1);
                    to(n, r, z, above.chain([n - r]).collect());
                }
            }
        }
    }
}

/// All accepted schemes.
pub fn all_schemes() -> Vec<Scheme> {
    let mut schemes = Vec::new();
    falling_lists(|n, r, z, counts| schemes.extend(Scheme::new(n, r, z, counts)));
    schemes
}

/// A length around the end of a block or of a batch of 64 blocks.
pub fn length(random: &mut Random, m: usize) -> usize {
    let blocks = [0, 1, 2, 3, 63, 64, 65, 130][random.below(8)];
    (blocks * m + random.below(3)).saturating_sub(1).min(MAX_MESSAGE)
}

/// Lengths around the ends of blocks, of a batch of 64 blocks in either form, and of the longest message.
pub fn lengths(m: usize) -> Vec<usize> {
    let mut lengths = vec![0, 1, m - 1, m, m + 1, 63 * m, 64 * m, MAX_MESSAGE - 1, MAX_MESSAGE];
    lengths.sort();
    lengths.dedup();
    lengths.retain(|&length| length <= MAX_MESSAGE);
    lengths
}

/// d of the n parties, rising.
pub fn parties(random: &mut Random, n: u8, d: u8) -> Vec<u8> {
    let mut all: Vec<u8> = (1..=n).collect();
    while all.len() > d as usize {
        all.remove(random.below(all.len()));
    }
    all
}

/// The first d parties, the last d and d drawn ones; with d = n they are the same.
pub fn sets_of_parties(random: &mut Random, n: u8, d: u8) -> Vec<Vec<u8>> {
    let mut sets = vec![(1..=d).collect(), (n - d + 1..=n).collect(), parties(random, n, d)];
    sets.sort();
    sets.dedup();
    assert!(sets.len() >= 2 || d == n);
    sets
}

/// The two forms of message.
#[derive(Clone, Copy, Debug, PartialEq, Eq)]
pub enum Form {
    /// Padded with zeros where the last block is not full; the caller keeps the length.
    Earlier,
    /// Padded always, so that it knows its own end.
    Padded,
}

pub const FORMS: [Form; 2] = [Form::Earlier, Form::Padded];

impl Form {
    pub fn blocks(self, length: usize, m: usize) -> usize {
        match self {
            Form::Earlier => length.div_ceil(m),
            Form::Padded => length / m + 1,
        }
    }
}

/// The arguments of a call of any part of the library: of the slices that hold bytes, their lengths alone.
#[derive(Clone, Debug)]
pub struct Call {
    pub form: Form,
    pub scheme: Scheme,
    /// Of the message, as the splitter is lent it and the others are told it in the earlier form.
    pub length: usize,
    /// The count for which a prefix is asked.
    pub d: usize,
    pub parties: Vec<u8>,
    pub keys: usize,
    /// The pool that the splitter may take the keys from: how many bytes are lent, and what the record says.
    pub pool: usize,
    pub pool_length: usize,
    pub pool_position: usize,
    /// The splitter's output: all shares.
    pub shares: usize,
    /// What a party lends.
    pub share: usize,
    /// What the readers lend.
    pub prefixes: usize,
    /// The opener's output: the message, in the padded form with its padding.
    pub message: usize,
    /// The range that is asked for: the place of its first byte, and its length.
    pub start: usize,
    pub range_length: usize,
    /// The output of the opener of a range.
    pub range: usize,
    /// The place of the last byte that is not 0 in the blocks of which the readers lend prefixes, and this byte. Without it
    /// they lend drawn bytes, which no splitter wrote.
    pub end: Option<(usize, u8)>,
}

impl Call {
    /// An accepted call: a message of this form and length, read by these parties. The range is all of it, and the pool
    /// has the keys and nothing else.
    pub fn new(form: Form, scheme: &Scheme, length: usize, parties: Vec<u8>) -> Call {
        let (z, d) = (scheme.z as usize, parties.len());
        let blocks = form.blocks(length, scheme.m);
        let share = blocks * scheme.b;
        Call {
            form,
            scheme: scheme.clone(),
            length,
            d,
            parties,
            keys: share * z,
            pool: share * z,
            pool_length: share * z,
            pool_position: 0,
            shares: share * scheme.n as usize,
            share,
            prefixes: d * (scheme.m / (d - z)) * blocks,
            message: if form == Form::Padded { blocks * scheme.m } else { length },
            start: 0,
            range_length: length,
            range: length,
            end: (form == Form::Padded).then_some((length, 128)),
        }
    }

    /// The same with d parties drawn, d one of the counts.
    pub fn drawn(random: &mut Random, form: Form, scheme: &Scheme, length: usize) -> Call {
        let d = scheme.counts[random.below(scheme.counts.len())];
        Call::new(form, scheme, length, parties(random, scheme.n, d))
    }

    /// The same with another range.
    pub fn with_range(&self, start: usize, range_length: usize) -> Call {
        Call { start, range_length, range: range_length, ..self.clone() }
    }

    /// The same with a range of the message drawn.
    pub fn with_drawn_range(&self, random: &mut Random) -> Call {
        let start = random.below(self.length + 1);
        self.with_range(start, random.below(self.length - start + 1))
    }

    /// The same with a pool of which bytes may have been taken, and more may be left than this call takes.
    pub fn with_drawn_pool(&self, random: &mut Random) -> Call {
        let mut some = || random.below(3) * random.below(50);
        let (position, more) = (some(), some());
        let pool = position + self.keys + more;
        Call { pool, pool_length: pool, pool_position: position, ..self.clone() }
    }

    /// What the parties of an accepted call send of the shares, which stand one after another.
    pub fn sent(&self, shares: &[u8]) -> Vec<u8> {
        let prefix = self.prefixes / self.d;
        let of_party = |&party: &u8| &shares[(party as usize - 1) * self.share..][..prefix];
        self.parties.iter().flat_map(of_party).copied().collect()
    }
}
