//! Archives for tests: calls of the writer that are accepted until something in them is changed, and files of any kind.

use crate::random::Random;
use crate::reference;

/// A call of the writer.
#[derive(Clone, Debug)]
pub struct WriteCall {
    pub contents: Vec<u8>,
    pub lengths: Vec<usize>,
    /// By how much the output is longer than it has to be.
    pub excess: isize,
}

impl WriteCall {
    /// Entries of these lengths.
    pub fn new(random: &mut Random, lengths: Vec<usize>) -> WriteCall {
        WriteCall { contents: random.bytes(lengths.iter().sum()), lengths, excess: 0 }
    }

    /// So many entries; short ones, and here and there one that is longer than a byte can tell.
    pub fn drawn(random: &mut Random, count: usize) -> WriteCall {
        let length = |_| {
            let longest = [3, 20, 20, 600][random.below(4)];
            1 + random.below(longest)
        };
        let lengths = (0..count).map(length).collect();
        WriteCall::new(random, lengths)
    }

    pub fn push(&mut self, length: usize) {
        self.lengths.push(length);
        self.contents.resize(self.contents.len() + length, 7);
    }

    /// The length of the output.
    pub fn out(&self) -> usize {
        (2 + 4 * self.lengths.len() + self.contents.len()).saturating_add_signed(self.excess)
    }

    /// The archive that an accepted call writes.
    pub fn file(&self) -> Vec<u8> {
        reference::archive::write(&self.contents, &self.lengths, self.out()).expect("an accepted call")
    }
}

/// The file of a count, pairs and contents that need not fit together. Numbers lose what two bytes do not hold.
pub fn file(count: usize, pairs: &[(usize, usize)], contents: &[u8]) -> Vec<u8> {
    let numbers = [count].into_iter().chain(pairs.iter().flat_map(|&(offset, length)| [offset, length]));
    let mut file: Vec<u8> = numbers.flat_map(|number| (number as u16).to_le_bytes()).collect();
    file.extend(contents);
    file
}
