//! What the second implementation finds in a pool, and with which lists both
//! sides are therefore called.

use crate::library::{ENTRY_WORDS, FAULT_WORDS};
use crate::shape::SHORTEST_RECORD;
use second::{Fault, Record, MAX_POOL_BYTES};
use std::collections::BTreeSet;

/// How many faults can be taken without a second check.
const USUAL_FAULTS: usize = 256;
/// How many calls are made with a pool.
#[derive(Clone, Copy, PartialEq, Eq, PartialOrd, Ord)]
pub enum Effort {
    Little,
    Usual,
    Full,
    /// As `Full`, with the longest lists too, and with queries for every ID.
    Exhaustive,
}

pub struct Verdict {
    /// No record means that the pool is refused.
    pub records: Vec<Record>,
    pub faults: Vec<Fault>,
    /// Entries that are enough for all records that the pool could have.
    pub most_entries: usize,
}

impl Verdict {
    pub fn of(pool: &[u8]) -> Self {
        let most_entries = pool.len().min(MAX_POOL_BYTES) / SHORTEST_RECORD + 1;
        let mut verdict = Verdict {
            records: vec![Record::default(); most_entries],
            faults: vec![Fault::default(); USUAL_FAULTS],
            most_entries,
        };
        if verdict.check(pool) > USUAL_FAULTS {
            verdict.check(pool);
        }
        verdict
    }

    /// Checks once, and sets the lists to the lengths that are found.
    fn check(&mut self, pool: &[u8]) -> usize {
        self.records.resize(self.most_entries, Record::default());
        let count = second::check(pool, &mut self.records, &mut self.faults).ok();
        // An entry is only written where a record is, and no record is empty.
        let is_record = |record: &Record| count.is_some() && record.length > 0;
        let records = self.records.iter().take_while(|it| is_record(it)).count();
        self.records.truncate(records);
        self.faults.resize(count.unwrap_or(0), Fault::default());
        self.faults.len()
    }

    pub fn is_refused(&self) -> bool {
        self.records.is_empty()
    }

    pub fn is_accepted(&self) -> bool {
        !self.is_refused() && self.faults.is_empty()
    }

    /// Words that a table needs for all records.
    pub fn needed(&self) -> usize {
        ENTRY_WORDS * self.records.len()
    }

    /// Lengths of tables around what reading needs, some of which end inside an
    /// entry.
    pub fn tables(&self, effort: Effort) -> BTreeSet<usize> {
        if self.is_refused() {
            return [0, ENTRY_WORDS + 1, ENTRY_WORDS * self.most_entries].into();
        }
        let needed = self.needed();
        let mut lengths = BTreeSet::from([needed - 1, needed, needed + 9 * ENTRY_WORDS]);
        if effort >= Effort::Full {
            lengths.extend([0, 1, ENTRY_WORDS]);
            lengths.extend(needed - ENTRY_WORDS..=needed + ENTRY_WORDS);
        }
        lengths
    }

    /// Lengths of tables and fault buffers for checking. The buffers have room
    /// for none, a few, all but one, exactly all, one more or many more faults,
    /// often with words left over. Some tables are too short.
    pub fn lists(&self, effort: Effort) -> BTreeSet<(usize, usize)> {
        let words = |faults: usize| FAULT_WORDS * faults;
        if self.is_refused() {
            let table = ENTRY_WORDS * self.most_entries;
            return [(0, 0), (ENTRY_WORDS + 1, words(1) + 2), (table, words(20))].into();
        }
        let (needed, count) = (self.needed(), self.faults.len());
        let fewer = count.saturating_sub(1);
        let mut lists =
            BTreeSet::from([(needed, words(count + 20)), (needed - 1, words(count + 1))]);
        if effort >= Effort::Usual {
            lists.insert((needed + 1, words(fewer) + 2));
        }
        if effort >= Effort::Full {
            let buffers = [0, 1, 2, 3, fewer, count, count + 1];
            for (index, faults) in buffers.into_iter().enumerate() {
                let table = needed + [0, 1, ENTRY_WORDS, 37][index % 4];
                lists.extend((0..FAULT_WORDS).map(|more| (table, words(faults) + more)));
            }
            lists.extend([
                (0, words(count)),
                (needed - ENTRY_WORDS, words(1)),
                (needed - 1, 0),
            ]);
        }
        if effort == Effort::Exhaustive {
            // More entries and faults than 16 bits can count.
            lists.insert((ENTRY_WORDS << 16, FAULT_WORDS << 16));
        }
        lists
    }
}
