//! What splitting with keys from a pool costs beside splitting under the same keys, lent, in both forms of message.

use super::check::{schemes, shape};
use super::measure::{Program, TURNS};
use super::Split;
use comparison::calls;
use comparison::cases::{Scheme, FORMS};
use comparison::random::Random;
use gilunavoi::limits::MAX_MESSAGE;
use gilunavoi::raw::KeyPool;
use std::cell::RefCell;
use std::rc::Rc;

/// The same message, with a pool of the keys that its twin is lent.
struct FromPool {
    twin: Rc<Split>,
    shares: RefCell<Vec<u8>>,
}

impl FromPool {
    fn new(twin: &Rc<Split>) -> FromPool {
        let from_pool = FromPool { twin: twin.clone(), shares: RefCell::new(vec![0; twin.call.shares]) };
        from_pool.split();
        assert!(from_pool.shares == twin.shares, "the two split alike");
        from_pool
    }

    fn split(&self) {
        let Split { call, message, keys, .. } = &*self.twin;
        // Nothing is to be kept secret here: the same bytes are taken each time.
        let mut record = KeyPool { length: keys.len(), position: 0 };
        let answer = calls::split_from_pool(call, &mut record, message, keys, &mut self.shares.borrow_mut());
        assert_eq!((answer, record.position), (Ok(call.share as u64), keys.len()));
    }
}

/// A call with keys that are lent, and its twin.
fn twins(split: Rc<Split>) -> [Program; 2] {
    let (length, from_pool) = (split.call.length, FromPool::new(&split));
    [Program::new(length, move || split.by_the_library()), Program::new(length, move || from_pool.split())]
}

/// Messages of one length, of the earlier form and padded.
struct Line {
    length: usize,
    twins: [[Program; 2]; 2],
}

impl Line {
    fn new(random: &mut Random, scheme: &Scheme, length: usize) -> Line {
        Line { length, twins: FORMS.map(|form| twins(Split::new(random, form, scheme, length))) }
    }

    fn text(&self) -> String {
        let columns = |[lent, from_pool]: &[Program; 2]| {
            let times = from_pool.best() / lent.best();
            let [lent, best, median] = [lent.best(), from_pool.best(), from_pool.median()].map(|seconds| seconds * 1e6);
            format!("{lent:9.3} {best:9.3} {median:9.3} {times:6.2}")
        };
        let [earlier, padded] = self.twins.each_ref().map(columns);
        format!("{:42} {earlier} {padded}\n", format!("    {} bytes", self.length))
    }
}

/// The lines of a scheme. All its programs take turns.
fn lines(random: &mut Random, scheme: &Scheme) -> String {
    let mut lines = [1, 1 << 10, MAX_MESSAGE].map(|length| Line::new(random, scheme, length));
    for _ in 0..TURNS {
        lines.iter_mut().flat_map(|line| line.twins.as_flattened_mut()).for_each(Program::turn);
    }
    let lines: String = lines.iter().map(Line::text).collect();
    format!("{}\n{lines}", shape(scheme))
}

pub fn table(random: &mut Random) -> String {
    let [split, pool, median, times, padded] = ["us: split", "pool", "median", "times", "padded"];
    let lines: String = schemes().iter().map(|scheme| lines(random, scheme)).collect();
    format!(
        "keys from a pool: microseconds of a split with lent keys, best turn; of the same with keys from a pool, best and\n\
         median turn, and how many times the first; and all four of padded messages\n\
         {:42} {split:>9} {pool:>9} {median:>9} {times:>6} {padded:>9} {pool:>9} {median:>9} {times:>6}\n{lines}",
        ""
    )
}
