//! Many plain records at one end of a pool, by which a short input makes long
//! tables, chains and lists.

use crate::bytes::Bytes;
use compare::objects::Object;
use second::Kind;
use std::borrow::Cow;

/// Sizes below this mean few records, as most inputs should have: long pools
/// cost a fuzzer time.
const LONG: u8 = 192;
/// Numbers of filling elements start here, so that those below are free.
const FIRST_NUMBER: usize = 64;

const IN_FRONT: u8 = 1;
/// Device elements, each below the one before it; otherwise process data.
const ELEMENTS: u8 = 1 << 1;
/// The first element is below the last one.
const RING: u8 = 1 << 2;
/// A device element lists all records.
const LISTED: u8 = 1 << 3;
const FALLING_IDS: u8 = 1 << 4;
const EQUAL_IDS: u8 = 1 << 5;

pub struct Filler {
    count: usize,
    ways: u8,
    first_id: u16,
}

impl Filler {
    /// The greatest size means more records than a pool holds.
    pub fn take(bytes: &mut Bytes) -> Self {
        let size = bytes.byte();
        let count = match size.checked_sub(LONG) {
            None => usize::from(size / 16),
            Some(more) => usize::from(more + 1).pow(2) * 11 / 8,
        };
        Filler {
            count,
            ways: bytes.byte(),
            first_id: bytes.word(),
        }
    }

    /// The pool with the filling records before or after it.
    pub fn around<'a>(&self, pool: &'a [u8]) -> Cow<'a, [u8]> {
        if self.count == 0 {
            return pool.into();
        }
        let mut filling = Vec::new();
        if self.has(LISTED) {
            let mut element = Object::plain(Kind::Det, self.first_id.wrapping_sub(1));
            element.number = FIRST_NUMBER as u16 - 1;
            element.entries = (0..self.count).map(|index| self.id(index)).collect();
            element.write(&mut filling);
        }
        for index in 0..self.count {
            self.record(index).write(&mut filling);
        }
        if self.has(IN_FRONT) {
            filling.extend(pool);
            filling.into()
        } else {
            [pool, &filling].concat().into()
        }
    }

    fn has(&self, way: u8) -> bool {
        self.ways & way != 0
    }

    fn id(&self, index: usize) -> u16 {
        if self.has(EQUAL_IDS) {
            self.first_id
        } else if self.has(FALLING_IDS) {
            self.first_id.wrapping_sub(index as u16)
        } else {
            self.first_id.wrapping_add(index as u16)
        }
    }

    fn record(&self, index: usize) -> Object {
        if self.has(ELEMENTS) {
            let mut element = Object::plain(Kind::Det, self.id(index));
            element.number = (FIRST_NUMBER + index) as u16;
            element.parent = match index.checked_sub(1) {
                Some(before) => self.id(before),
                None if self.has(RING) => self.id(self.count - 1),
                None => 0,
            };
            element
        } else {
            let mut data = Object::plain(Kind::Dpd, self.id(index));
            data.ddi = index as u16;
            data
        }
    }
}
