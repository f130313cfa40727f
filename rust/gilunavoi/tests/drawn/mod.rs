//! What the tests draw: numbers and bytes that are the same in every run, and calls in some schemes.
#![allow(dead_code)]

use gilunavoi::{Form, Scheme};

pub const FORMS: [Form; 2] = [Form::Padded, Form::Earlier];

/// Of each kind that makes a difference: one row or many, one count or several, n - r + 2 parties or fewer, z of 1 and more.
pub fn schemes() -> Vec<Scheme> {
    let texts = ["2,0,1,2", "3,1,1,3,2", "4,2,1,3,2", "5,2,2,5,4,3", "5,2,1,5,4,3", "7,4,1,7,4,3", "16,8,7,16,15,8"];
    let long = ["9,3,1,9,8,7,6", "6,0,5,6"];
    texts.into_iter().chain(long).map(|text| text.parse().expect(text)).collect()
}

pub struct Random(pub u64);

impl Random {
    /// By splitmix64.
    pub fn next(&mut self) -> u64 {
        self.0 = self.0.wrapping_add(0x9e37_79b9_7f4a_7c15);
        let mut z = self.0;
        z = (z ^ (z >> 30)).wrapping_mul(0xbf58_476d_1ce4_e5b9);
        z = (z ^ (z >> 27)).wrapping_mul(0x94d0_49bb_1331_11eb);
        z ^ (z >> 31)
    }

    pub fn below(&mut self, bound: usize) -> usize {
        (self.next() % bound as u64) as usize
    }

    pub fn bytes(&mut self, length: usize) -> Vec<u8> {
        (0..length).map(|_| self.next() as u8).collect()
    }

    pub fn scheme(&mut self) -> Scheme {
        let mut schemes = schemes();
        schemes.swap_remove(self.below(schemes.len()))
    }

    /// Mostly the length itself, and now and then another.
    pub fn about(&mut self, length: usize) -> usize {
        match self.below(12) {
            0 => length + 1,
            1 => length.saturating_sub(1),
            _ => length,
        }
    }

    /// So many parties of a scheme, rising.
    pub fn parties(&mut self, n: u8, many: usize) -> Vec<u8> {
        let mut parties: Vec<u8> = (1..=n).collect();
        while parties.len() > many {
            parties.remove(self.below(parties.len()));
        }
        parties
    }

    /// Mostly as many parties as one of the counts says, in the right order.
    pub fn readers(&mut self, scheme: &Scheme) -> Vec<u8> {
        let d = scheme.counts()[self.below(scheme.counts().len())];
        let mut parties = self.parties(scheme.n(), usize::from(d));
        match self.below(12) {
            0 => parties.reverse(),
            1 => parties.truncate(1),
            2 => parties[0] = 0,
            _ => {}
        }
        parties
    }
}
