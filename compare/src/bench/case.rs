//! A pool with everything that either side needs to work on it.

use super::keep;
use super::times::{time, Side};
use crate::calls;
use crate::exchange::{judge_by_both, Order};
use crate::lent::LentPool;
use crate::library::{self, ENTRY_WORDS, FAULT_WORDS};
use crate::objects::{pool_of, Object};
use crate::queries::Query;
use crate::verdict::Verdict;
use lachsbrille::c::DeviceLabels;
use second::{Fault, Record};
use std::hint::black_box;

/// As many faults as the lister prints.
const FAULTS: usize = 1_024;

#[derive(Clone, Copy)]
pub enum Work {
    Read,
    Check,
    Query(Query),
    Judge(Order),
}

pub struct Case {
    pub pool: Vec<u8>,
    records: usize,
    /// The number of all faults of the pool.
    faults: usize,
    table_words: Vec<u16>,
    fault_words: Vec<u16>,
    labels: DeviceLabels,
    table: Vec<Record>,
    buffer: Vec<Fault>,
}

impl Case {
    pub fn new(objects: &[Object]) -> Self {
        let pool = pool_of(objects);
        let verdict = Verdict::of(&pool);
        let records = verdict.records.len();
        Case {
            pool,
            records,
            faults: verdict.faults.len(),
            table_words: vec![0; ENTRY_WORDS * records],
            fault_words: vec![0; FAULT_WORDS * FAULTS],
            labels: DeviceLabels::default(),
            table: vec![Record::default(); records],
            buffer: vec![Fault::default(); FAULTS],
        }
    }

    /// The same with buffers that have room for all faults of the pool.
    pub fn with_room_for_all(mut self) -> Self {
        self.fault_words.resize(FAULT_WORDS * self.faults, 0);
        self.buffer.resize(self.faults, Fault::default());
        self
    }

    pub fn records(&self) -> usize {
        self.records
    }

    pub fn faults(&self) -> usize {
        self.faults
    }

    /// Has both sides do the work once and compares all results.
    pub fn compare(&self, work: Work) -> Result<(), String> {
        let pool = LentPool::new(&self.pool);
        let table = self.table_words.len();
        let faults = FAULT_WORDS * (self.faults + 1);
        let difference = match work {
            Work::Read => calls::read(&pool, table).difference,
            Work::Check => calls::check(&pool, table, faults).difference,
            Work::Query(query) => query.compare(&pool, table).difference,
            Work::Judge(order) => judge_by_both(&self.pool, table, order).err(),
        };
        match difference {
            None => Ok(()),
            Some(difference) => {
                let bytes = self.pool.len();
                Err(format!("a pool of {bytes} bytes: {difference}"))
            }
        }
    }

    /// Microseconds per call, in a round of `calls` calls.
    pub fn time(&mut self, side: Side, work: Work, calls: usize) -> f64 {
        match side {
            Side::Library => time(calls, || self.by_library(work)),
            Side::Second => time(calls, || self.by_second(work)),
        }
    }

    fn by_library(&mut self, work: Work) {
        let pool = black_box(&self.pool[..]);
        let table = black_box(&mut self.table_words[..]);
        let faults = black_box(&mut self.fault_words[..]);
        match work {
            Work::Read => keep(library::read(pool, table)),
            Work::Check => keep(library::check(pool, table, faults)),
            Work::Query(query) => query.by_library(pool, table, black_box(&mut self.labels)),
            Work::Judge(order) => keep(order.judge_by_library(pool, table)),
        }
    }

    fn by_second(&mut self, work: Work) {
        let pool = black_box(&self.pool[..]);
        let table = black_box(&mut self.table[..]);
        let faults = black_box(&mut self.buffer[..]);
        match work {
            Work::Read => keep(second::read_pool(pool, table)),
            Work::Check => keep(second::check(pool, table, faults)),
            Work::Query(query) => query.by_second(pool, table),
            Work::Judge(order) => keep(order.judge_by_second(pool, table)),
        }
    }
}
