//! Tables with a place for each 16-bit number. They are kept from one check
//! to the next, because emptying them would take longer than checking a
//! small pool.

use crate::pool::{Record, NO_REFERENCE};
use std::mem;

const NUMBERS: usize = 1 << 16;

/// Finds the first record that carries an ID.
pub struct Carriers {
    /// By ID. Where no record carries the ID, the index is left over from
    /// another pool and means nothing.
    first: Box<[u16; NUMBERS]>,
}

impl Carriers {
    pub fn new() -> Self {
        Carriers { first: zeros() }
    }

    /// Enters the records of a pool; the answers then hold for this pool.
    pub fn names<'a>(&'a mut self, records: &'a [Record]) -> Names<'a> {
        // From the last to the first, so that the first carrier remains.
        for (index, record) in records.iter().enumerate().rev() {
            self.first[usize::from(record.id)] = index as u16;
        }
        Names {
            records,
            first: &self.first,
        }
    }
}

/// What the IDs of one pool name. A record is given by its index in the table.
#[derive(Clone, Copy)]
pub struct Names<'a> {
    pub records: &'a [Record],
    first: &'a [u16; NUMBERS],
}

impl Names<'_> {
    /// The index of the record that a reference names.
    #[inline]
    pub fn index_named_by(self, id: u16) -> Option<usize> {
        let index = usize::from(self.first[usize::from(id)]);
        // An index left over from another pool leads to another ID or to none.
        let carried = self.records.get(index).is_some_and(|it| it.id == id);
        (carried && id != NO_REFERENCE).then_some(index)
    }

    /// The record that a reference names.
    #[inline]
    pub fn named_by(self, id: u16) -> Option<Record> {
        self.index_named_by(id).map(|index| self.records[index])
    }

    /// Whether a record before this one carries its ID too.
    #[inline]
    pub fn is_repeated(self, index: usize) -> bool {
        usize::from(self.first[usize::from(self.records[index].id)]) != index
    }
}

/// A set of 16-bit numbers that is emptied in one step.
pub struct NumberSet {
    /// The round in which a number was last put in.
    rounds: Box<[u32; NUMBERS]>,
    round: u32,
}

impl NumberSet {
    pub fn new() -> Self {
        NumberSet {
            rounds: zeros(),
            round: 1,
        }
    }

    pub fn clear(&mut self) {
        self.round = self.round.wrapping_add(1);
        if self.round == 0 {
            self.rounds.fill(0);
            self.round = 1;
        }
    }

    /// Puts `number` in; false if it was in already.
    #[inline]
    pub fn insert(&mut self, number: u16) -> bool {
        mem::replace(&mut self.rounds[usize::from(number)], self.round) != self.round
    }
}

fn zeros<T: Clone + Default>() -> Box<[T; NUMBERS]> {
    let places = vec![T::default(); NUMBERS].into_boxed_slice();
    places.try_into().ok().expect("a place for each number")
}

#[cfg(test)]
mod tests {
    use super::*;

    fn records(ids: &[u16]) -> Vec<Record> {
        ids.iter()
            .map(|&id| Record {
                id,
                ..Record::default()
            })
            .collect()
    }

    #[test]
    fn an_id_names_its_first_carrier_and_65535_nothing() {
        let mut carriers = Carriers::new();
        let records = records(&[7, 65_535, 7, 0, 65_535]);
        let names = carriers.names(&records);
        assert_eq!(names.index_named_by(7), Some(0));
        assert_eq!(names.index_named_by(0), Some(3));
        assert_eq!(names.index_named_by(8), None);
        assert_eq!(names.index_named_by(65_535), None);
        let repeated = [0, 1, 2, 3, 4].map(|index| names.is_repeated(index));
        assert_eq!(repeated, [false, false, true, false, true]);
    }

    #[test]
    fn nothing_is_left_of_an_earlier_pool() {
        let mut carriers = Carriers::new();
        carriers.names(&records(&[1, 2, 3, 4]));
        let later = records(&[4, 3, 9]);
        let names = carriers.names(&later);
        let named = [1, 2, 3, 4, 9].map(|id| names.index_named_by(id));
        assert_eq!(named, [None, None, Some(1), Some(0), Some(2)]);
        assert!(!names.is_repeated(0));
    }

    #[test]
    fn a_cleared_set_is_empty() {
        let mut set = NumberSet::new();
        for _ in 0..3 {
            assert!(set.insert(0));
            assert!(set.insert(65_535));
            assert!(!set.insert(0));
            set.clear();
        }
    }

    #[test]
    fn a_set_is_empty_after_its_last_round_too() {
        let mut set = NumberSet::new();
        set.insert(5);
        set.round = u32::MAX;
        assert!(set.insert(6));
        set.clear();
        assert!(set.insert(5));
        assert!(set.insert(6));
        assert!(set.insert(7));
    }
}
