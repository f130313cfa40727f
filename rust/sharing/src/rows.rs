//! The rows of a block, for who wants to see them: what stands at each degree of a row, by the rule in docs/RULES.md. The
//! library has its own form of it, and answers nothing of it.

use crate::scheme::{Block, Scheme};
use std::ops::Range;

/// What stands at a degree of a row. All is counted from 0.
#[derive(Clone, Copy, Debug, PartialEq)]
pub enum Coefficient {
    /// The key byte of this number in the block.
    Key(usize),
    /// The message byte at this place in the block.
    Message(usize),
    /// The same, copied from this degree of this row.
    Copy { place: usize, row: usize, degree: usize },
}

/// The rows that a count adds to those of the count before it. Each has as many coefficients as the count says.
pub struct Group {
    pub d: usize,
    /// The count before it. The first group has none.
    pub before: Option<usize>,
    pub rows: Range<usize>,
}

/// The rows of a block, group after group.
pub struct Rows {
    z: usize,
    pub groups: Vec<Group>,
}

impl Rows {
    /// Those of an accepted scheme.
    pub fn new(scheme: &Scheme, block: &Block) -> Rows {
        let mut groups: Vec<Group> = Vec::new();
        for d in scheme.counts.iter().map(|&d| d as usize) {
            let (start, before) = groups.last().map_or((0, None), |last| (last.rows.end, Some(last.d)));
            groups.push(Group { d, before, rows: start..block.prefix_of_block(d) });
        }
        Rows { z: scheme.z as usize, groups }
    }

    pub fn coefficient(&self, row: usize, degree: usize) -> Coefficient {
        if degree < self.z {
            return Coefficient::Key(row * self.z + degree);
        }
        match self.origin(row, degree) {
            None => Coefficient::Message(self.place(row, degree)),
            Some((row, degree)) => Coefficient::Copy { place: self.place(row, degree), row, degree },
        }
    }

    fn group(&self, row: usize) -> &Group {
        self.groups.iter().find(|group| group.rows.contains(&row)).expect("a row of the block")
    }

    /// How many coefficients of the row's group stand before this one, the keys left out.
    fn position(&self, row: usize, degree: usize) -> usize {
        let group = self.group(row);
        (row - group.rows.start) * (group.d - self.z) + degree - self.z
    }

    /// The row and the degree that it is copied from, in a later group. Every row before the group gives the degrees from
    /// the group's count up to the count before it, the first row first.
    fn origin(&self, row: usize, degree: usize) -> Option<(usize, usize)> {
        let group = self.group(row);
        let of_a_row = group.before? - group.d;
        let position = self.position(row, degree);
        Some((position / of_a_row, group.d + position % of_a_row))
    }

    /// The place in the block of the message byte that it is, whatever number of times it was copied.
    fn place(&self, row: usize, degree: usize) -> usize {
        match self.origin(row, degree) {
            Some((row, degree)) => self.place(row, degree),
            None => self.position(row, degree),
        }
    }
}

#[cfg(test)]
mod tests {
    use super::*;
    use comparison::cases;
    use comparison::reference::range::rows_in_order;
    use std::collections::HashSet;

    fn scheme(in_a_row: &str) -> (Scheme, Block) {
        let scheme = Scheme::from_words([in_a_row.as_ref()]).unwrap_or_else(|_| panic!("{in_a_row} is a scheme"));
        let block = scheme.check().unwrap_or_else(|_| panic!("{in_a_row} is accepted"));
        (scheme, block)
    }

    fn place(coefficient: Coefficient) -> Option<usize> {
        match coefficient {
            Coefficient::Key(_) => None,
            Coefficient::Message(place) | Coefficient::Copy { place, .. } => Some(place),
        }
    }

    /// The message bytes in each row.
    fn places(rows: &Rows) -> Vec<Vec<usize>> {
        let row = |row, d| (0..d).filter_map(|degree| place(rows.coefficient(row, degree))).collect();
        rows.groups.iter().flat_map(|group| group.rows.clone().map(|number| row(number, group.d))).collect()
    }

    /// The schemes of the rules, as docs/RULES.md lists their places.
    #[test]
    fn listed_places() {
        let of = |in_a_row: &str| {
            let (scheme, block) = scheme(in_a_row);
            places(&Rows::new(&scheme, &block))
        };
        assert_eq!(of("5,2,2,5,4,3"), [vec![0, 1, 2], vec![3, 4, 5], vec![2, 5], vec![1], vec![4], vec![5]]);
        assert_eq!(of("7,4,1,7,4,3"), [vec![0, 1, 2, 3, 4, 5], vec![3, 4, 5], vec![2, 5]]);
        assert_eq!(of("3,1,1,3,2"), [vec![0, 1], vec![1]]);
    }

    /// The other implementation has the rows as lists.
    #[test]
    fn places_of_the_other_implementation() {
        for case in cases::schemes() {
            let numbers = [&[case.n, case.r, case.z], &case.counts[..]].concat();
            let (scheme, block) = scheme(&crate::scheme::in_a_row(&numbers));
            let mut expected = rows_in_order(case.m, case.z, &case.counts, scheme.enough() as usize);
            expected.sort_by_key(|(number, _)| *number);
            let expected: Vec<_> = expected.into_iter().map(|(_, places)| places).collect();
            assert_eq!(places(&Rows::new(&scheme, &block)), expected, "{scheme}");
        }
    }

    /// What a copy is said to come from holds the same byte and stands in a row before its group, at a degree that the
    /// group's rows lack; nothing is copied twice into a group, and every key byte is used once.
    #[test]
    fn origins() {
        for in_a_row in ["5,2,2,5,4,3", "7,4,1,7,4,3", "9,3,1,9,8,7,6", "12,4,3,12,9,8", "2,0,1,2"] {
            let (scheme, block) = scheme(in_a_row);
            let rows = Rows::new(&scheme, &block);
            let mut keys = HashSet::new();
            for group in &rows.groups {
                let mut origins = HashSet::new();
                let all = group.rows.clone().flat_map(|row| (0..group.d).map(move |degree| (row, degree)));
                all.for_each(|(row, degree)| match rows.coefficient(row, degree) {
                    Coefficient::Key(number) => assert!(degree < scheme.z as usize && keys.insert(number)),
                    Coefficient::Message(_) => assert_eq!(group.rows.start, 0),
                    Coefficient::Copy { place: copied, row, degree } => {
                        assert!(row < group.rows.start && (group.d..group.before.unwrap_or(0)).contains(&degree));
                        assert_eq!(place(rows.coefficient(row, degree)), Some(copied));
                        assert!(origins.insert((row, degree)));
                    }
                });
                assert_eq!(origins.len(), group.rows.start * (group.before.unwrap_or(group.d) - group.d), "{scheme}");
            }
            assert_eq!(keys.len(), block.keys, "{scheme}");
        }
    }
}
