//! The obvious program for the same shares, to compare speeds with: byte after byte, products by tables of the powers
//! and logarithms of 3. What depends on the scheme and the parties alone is worked out beforehand.

use comparison::cases::Scheme;
use comparison::reference;
use gilunavoi::limits::MAX_PARTIES;

struct Products {
    powers: [u8; 510],
    logarithms: [u8; 256],
}

impl Products {
    fn new() -> Products {
        let mut products = Products { powers: [0; 510], logarithms: [0; 256] };
        let mut power = 1;
        for i in 0..255 {
            products.powers[i] = power;
            products.powers[i + 255] = power;
            products.logarithms[power as usize] = i as u8;
            power = reference::mul(power, 3);
        }
        products
    }

    fn mul(&self, a: u8, b: u8) -> u8 {
        if a == 0 || b == 0 {
            return 0;
        }
        self.powers[self.logarithms[a as usize] as usize + self.logarithms[b as usize] as usize]
    }

    /// The value at a point of the coefficients, lowest first.
    fn value(&self, coefficients: &[u8], point: u8) -> u8 {
        coefficients.iter().rev().fold(0, |value, &coefficient| self.mul(value, point) ^ coefficient)
    }
}

pub struct Tables {
    products: Products,
    scheme: Scheme,
    /// Of each row, the places in a block of its coefficients from degree z up.
    places: Vec<Vec<usize>>,
}

impl Tables {
    pub fn new(scheme: &Scheme) -> Tables {
        let z = scheme.z as usize;
        let mut places: Vec<Vec<usize>> = Vec::new();
        let mut list: Vec<usize> = (0..scheme.m).collect();
        for (group, &d) in scheme.counts.iter().enumerate() {
            places.extend(list.chunks(d as usize - z).map(|row| row.to_vec()));
            if let Some(&next) = scheme.counts.get(group + 1) {
                let lost = next as usize - z..d as usize - z;
                list = places.iter().flat_map(|row| row[lost.clone()].to_vec()).collect();
            }
        }
        Tables { products: Products::new(), scheme: scheme.clone(), places }
    }

    pub fn split(&self, message: &[u8], keys: &[u8], out: &mut [u8]) {
        let (z, m, b) = (self.scheme.z as usize, self.scheme.m, self.scheme.b);
        let blocks = message.len().div_ceil(m);
        let mut coefficients = Vec::with_capacity(MAX_PARTIES as usize);
        for t in 0..blocks {
            for (j, places) in self.places.iter().enumerate() {
                coefficients.clear();
                coefficients.extend_from_slice(&keys[(t * b + j) * z..][..z]);
                coefficients.extend(places.iter().map(|place| message.get(t * m + place).copied().unwrap_or(0)));
                for a in 0..self.scheme.n {
                    out[a as usize * blocks * b + j * blocks + t] = self.products.value(&coefficients, a + 1);
                }
            }
        }
    }

    /// The rows of the prefixes from the last down: what a row loses stands in a later one.
    pub fn reconstruct(&self, parties: &[u8], basis: &[Vec<u8>], prefixes: &[u8], out: &mut [u8]) {
        let (z, m, d) = (self.scheme.z as usize, self.scheme.m, parties.len());
        let blocks = out.len().div_ceil(m);
        let rows = m / (d - z);
        let mut work = vec![0; m];
        let (mut coefficients, mut rests) = ([0; MAX_PARTIES as usize], [0; MAX_PARTIES as usize]);
        for t in 0..blocks {
            for (j, places) in self.places[..rows].iter().enumerate().rev() {
                for (e, &place) in places.iter().enumerate().skip(d - z) {
                    coefficients[z + e] = work[place];
                }
                for (a, &party) in parties.iter().enumerate() {
                    let upper = self.products.value(&coefficients[..z + places.len()], party);
                    rests[a] = prefixes[(a * rows + j) * blocks + t] ^ upper;
                }
                for (e, &place) in places.iter().enumerate().take(d - z) {
                    let parts = rests[..d].iter().zip(basis).map(|(&rest, row)| self.products.mul(rest, row[z + e]));
                    work[place] = parts.fold(0, |sum, part| sum ^ part);
                }
            }
            let end = out.len().min((t + 1) * m);
            out[t * m..end].copy_from_slice(&work[..end - t * m]);
        }
    }
}
