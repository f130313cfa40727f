//! A pool of keys, which keeps its bytes and its record together.

use crate::raw::KeyPool;
use std::fmt;
use std::hint::black_box;
use std::sync::atomic::{compiler_fence, Ordering};

/// Keys for many messages: bytes that were drawn once, and the record of how many are used. Each split takes the next ones
/// ([`Scheme::split_from_pool`](crate::Scheme::split_from_pool)), and no byte is taken twice.
///
/// No caller gets bytes and record apart, writes them or sets the record back. A pool is neither `Clone` nor `Copy`: a copy
/// would take the same bytes again, and who has shares of two messages under the same keys learns from them something of how
/// the messages differ.
///
/// ```compile_fail,E0599
/// fn twice(pool: gilunavoi::Pool) -> [gilunavoi::Pool; 2] {
///     [pool.clone(), pool]
/// }
/// ```
///
/// ```compile_fail,E0382
/// fn twice(pool: gilunavoi::Pool) -> [gilunavoi::Pool; 2] {
///     [pool, pool]
/// }
/// ```
///
/// # What is the caller's
///
/// The bytes are drawn evenly at random, kept as secret as the messages, and in no second pool. Where a pool is stored, its
/// [`record`](Pool::record) is safe on the disk after a split and before its shares are handed out; where it cannot be
/// stored, they are thrown away. A stored pool is never copied to be used twice, and not put back from a backup.
/// After `fork` only one of the two processes goes on using it.
///
/// # Used keys
///
/// Keys are overwritten with zeros when they have been used, and all of them when the pool is dropped. That is the best that
/// can be done from here, and no promise: it does not reach other copies, those that a growing vector left behind or that
/// stand in the source of the bytes, in registers, on the stack, in memory that was swapped out, or in a dump. Nothing is
/// overwritten if the process is stopped, or the pool forgotten.
pub struct Pool {
    bytes: Vec<u8>,
    record: KeyPool,
}

impl Pool {
    /// A pool of bytes that were drawn evenly at random and of which none was taken.
    pub fn new(bytes: Vec<u8>) -> Pool {
        let record = KeyPool { length: bytes.len(), position: 0 };
        Pool { bytes, record }
    }

    /// One that was stored: all of its bytes, and its record as the last split left it. The bytes before the position were
    /// taken, and need not be what they were.
    ///
    /// Where the record does not fit, since the bytes were cut or are another pool's, or the position is past the end, every
    /// call refuses it with [`Refusal::Pool`](crate::Refusal::Pool).
    ///
    /// ```
    /// use gilunavoi::raw::KeyPool;
    /// use gilunavoi::{Form, Pool, Refusal, Scheme};
    ///
    /// let (bytes, mut shares) = (vec![9, 4, 2, 6, 7], [0; 6]);
    /// let scheme = Scheme::new(3, 1, 1, &[3, 2])?;
    /// let mut pool = Pool::resumed(bytes.clone(), KeyPool { length: 5, position: 2 });
    /// assert_eq!(scheme.split_from_pool(Form::Earlier, &mut pool, &[5, 7], &mut shares), Ok(2));
    /// assert_eq!((pool.record(), pool.left()), (&KeyPool { length: 5, position: 4 }, 1));
    ///
    /// let mut cut = Pool::resumed(bytes[..4].to_vec(), KeyPool { length: 5, position: 2 });
    /// assert_eq!(scheme.split_from_pool(Form::Earlier, &mut cut, &[5, 7], &mut shares), Err(Refusal::Pool));
    /// # Ok::<(), Refusal>(())
    /// ```
    pub fn resumed(bytes: Vec<u8>, record: KeyPool) -> Pool {
        let mut pool = Pool { bytes, record };
        pool.overwrite_taken(0);
        pool
    }

    /// How many bytes there are, and how many of them were taken: what is stored beside the bytes, after every split and
    /// before its shares are handed out.
    pub fn record(&self) -> &KeyPool {
        &self.record
    }

    /// How many bytes were not taken. Of a pool whose record does not fit none can be: 0.
    pub fn left(&self) -> usize {
        if self.fits() {
            self.record.length - self.record.position
        } else {
            0
        }
    }

    /// Whether the record can be that of these bytes.
    fn fits(&self) -> bool {
        self.record.length == self.bytes.len() && self.record.position <= self.record.length
    }

    /// Lends the record and the bytes to a call that splits, and overwrites the keys that it took.
    pub(crate) fn lend<T>(&mut self, split: impl FnOnce(&mut KeyPool, &[u8]) -> T) -> T {
        let before = self.record.position;
        let answer = split(&mut self.record, &self.bytes);
        self.overwrite_taken(before);
        answer
    }

    /// Overwrites the bytes from a place to the position. No call reads bytes before the position. Where the record does not
    /// fit, which of them were taken is not known.
    fn overwrite_taken(&mut self, from: usize) {
        if self.fits() {
            overwrite(&mut self.bytes[from..self.record.position]);
        }
    }
}

/// The compiler is kept from leaving this out for bytes that are not read again: it may not know what `black_box` does with
/// them.
fn overwrite(bytes: &mut [u8]) {
    bytes.fill(0);
    black_box(bytes);
    compiler_fence(Ordering::SeqCst);
}

impl Drop for Pool {
    fn drop(&mut self) {
        overwrite(&mut self.bytes);
    }
}

/// Without the keys.
impl fmt::Debug for Pool {
    fn fmt(&self, f: &mut fmt::Formatter) -> fmt::Result {
        f.debug_struct("Pool").field("record", &self.record).finish_non_exhaustive()
    }
}

#[cfg(test)]
mod tests {
    use super::*;
    use crate::{Form, Refusal, Scheme};

    #[test]
    fn used_keys_are_overwritten() {
        let scheme = Scheme::new(3, 1, 1, &[3, 2]).expect("a scheme");
        let mut pool = Pool::resumed((1..=9).collect(), KeyPool { length: 9, position: 1 });
        assert_eq!(pool.bytes, [0, 2, 3, 4, 5, 6, 7, 8, 9]);
        assert_eq!(scheme.split_from_pool(Form::Padded, &mut pool, &[5], &mut [0; 6]), Ok(2));
        assert_eq!(pool.bytes, [0, 0, 0, 4, 5, 6, 7, 8, 9]);
        assert_eq!(scheme.split_from_pool(Form::Padded, &mut pool, &[5], &mut [0; 7]), Err(Refusal::OutputLength));
        assert_eq!(pool.bytes, [0, 0, 0, 4, 5, 6, 7, 8, 9]);
        assert_eq!(format!("{pool:?}"), "Pool { record: KeyPool { length: 9, position: 3 }, .. }");
    }

    /// Bytes that were cut, more bytes than there were, and positions past the end. Nothing is taken or overwritten.
    #[test]
    fn records_that_do_not_fit() {
        for (length, position) in [(3, 0), (3, 1), (1, 1), (2, 3), (3, 3), (0, 0), (0, 1), (usize::MAX, usize::MAX)] {
            let mut pool = Pool::resumed(vec![9, 4], KeyPool { length, position });
            // Also a message that takes none.
            let refused = Scheme::default().split_from_pool(Form::Earlier, &mut pool, &[], &mut []);
            assert_eq!((refused, pool.left()), (Err(Refusal::Pool), 0), "{pool:?}");
            assert_eq!((pool.record(), &pool.bytes[..]), (&KeyPool { length, position }, &[9, 4][..]));
        }
    }

    #[test]
    fn all_were_taken() {
        let pool = Pool::resumed(vec![9, 4], KeyPool { length: 2, position: 2 });
        assert_eq!((pool.left(), &pool.bytes[..]), (0, &[0, 0][..]));
    }
}
