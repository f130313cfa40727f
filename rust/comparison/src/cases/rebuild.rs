//! Calls that rebuild a share, of messages of both forms: accepted until something in them is changed.

use super::{parties, Form, Scheme};
use crate::random::Random;
use crate::reference;

/// All shares of a drawn message, one after another, under drawn keys.
pub fn shares(random: &mut Random, form: Form, scheme: &Scheme, length: usize) -> Vec<u8> {
    let s = scheme;
    let split = if form == Form::Padded { reference::split_padded } else { reference::split };
    let share = form.blocks(length, s.m) * s.b;
    let (message, keys) = (random.bytes(length), random.bytes(share * s.z as usize));
    split(s.n, s.r, s.z, &s.counts, &message, &keys, share * s.n as usize).expect("an accepted call")
}

/// The arguments of a call that rebuilds a share.
#[derive(Clone, Debug)]
pub struct RebuildCall {
    pub scheme: Scheme,
    /// Who lends a share.
    pub parties: Vec<u8>,
    /// What they lend, one after another.
    pub shares: Vec<u8>,
    /// Whose share is rebuilt.
    pub party: u8,
    pub held: Vec<u8>,
    /// The length of the output.
    pub out: usize,
}

impl RebuildCall {
    /// An accepted call: these parties lend theirs of all shares. There is no held copy.
    pub fn new(scheme: &Scheme, shares: &[u8], parties: Vec<u8>, party: u8) -> RebuildCall {
        let out = shares.len() / scheme.n as usize;
        let of_party = |&party: &u8| &shares[(party as usize - 1) * out..][..out];
        let shares = parties.iter().flat_map(of_party).copied().collect();
        RebuildCall { scheme: scheme.clone(), parties, shares, party, held: Vec::new(), out }
    }

    /// The same with so many parties drawn, and any party's share asked for.
    pub fn drawn(random: &mut Random, scheme: &Scheme, shares: &[u8], many: u8) -> RebuildCall {
        let party = 1 + random.below(scheme.n as usize) as u8;
        RebuildCall::new(scheme, shares, parties(random, scheme.n, many), party)
    }

    /// The same with a held copy.
    pub fn with_held(&self, held: Vec<u8>) -> RebuildCall {
        RebuildCall { held, ..self.clone() }
    }

    /// The byte at a place of a share made another one. The shares are numbered from 0, as they stand in the list.
    pub fn damage(&mut self, share: usize, place: usize, random: &mut Random) {
        change(&mut self.shares[share * self.out + place], random);
    }

    /// The same of one byte at least, and of as many as are drawn.
    pub fn damage_share(&mut self, share: usize, random: &mut Random) {
        let sure = random.below(self.out);
        let one_in = 1 + random.below(self.out);
        let places: Vec<usize> = (0..self.out).filter(|&place| place == sure || random.below(one_in) == 0).collect();
        places.into_iter().for_each(|place| self.damage(share, place, random));
    }

    /// How many shares are lent above the n - r that are needed.
    pub fn spare(&self) -> usize {
        self.parties.len() + self.scheme.r as usize - self.scheme.n as usize
    }
}

/// Makes another byte of it.
pub fn change(byte: &mut u8, random: &mut Random) {
    *byte ^= 1 + random.below(255) as u8;
}

/// A copy of a share of which so many bytes are others. Which ones is drawn.
pub fn changed(random: &mut Random, share: &[u8], many: usize) -> Vec<u8> {
    let (mut copy, mut places) = (share.to_vec(), (0..share.len()).collect::<Vec<usize>>());
    for _ in 0..many {
        let place = places.swap_remove(random.below(places.len()));
        change(&mut copy[place], random);
    }
    copy
}
