//! Calls made by both sides, with all memory that they could have changed.

use crate::lent::{noise, Lent, LentPool};
use crate::library::{self, Answer, Of, ENTRY_WORDS, FAULT_WORDS};
use crate::shape::KINDS;
use second::{Fault, Record};
use std::fmt::Debug;

/// A call that both sides made.
pub struct Compared {
    /// The second implementation's answer: 0 or a refusal.
    pub number: u32,
    /// Where the library differs from the second implementation.
    pub difference: Option<String>,
}

/// What a call answered, and what it left in the lists it was lent. A call
/// that takes no faults has none here.
pub struct Outcome<Answer> {
    answer: Answer,
    table: Lent,
    faults: Lent,
}

/// Reads into a table of `table` words.
pub fn read(pool: &LentPool, table: usize) -> Compared {
    let second = by_second(table, |table| {
        Answer::of(second::read_pool(pool.bytes(), table))
    });
    let library = by_library(table, |table| library::read(pool.bytes(), table));
    compare(pool, library, second, |answer| answer.number)
}

/// Checks with a table and a fault buffer of the given numbers of words.
pub fn check(pool: &LentPool, table: usize, faults: usize) -> Compared {
    let mut buffer = untouched_faults(faults / FAULT_WORDS);
    let mut second = by_second(table, |table| {
        Answer::of(second::check(pool.bytes(), table, &mut buffer))
    });
    second.faults = lent_faults(&buffer, faults);
    let mut lent = lent_faults(&untouched_faults(faults / FAULT_WORDS), faults);
    let mut library = by_library(table, |table| {
        library::check(pool.bytes(), table, lent.words())
    });
    library.faults = lent;
    compare(pool, library, second, |answer| answer.number)
}

/// The library's call, with a table of `words` words.
pub fn by_library<Answer>(
    words: usize,
    call: impl FnOnce(&mut [u16]) -> Answer,
) -> Outcome<Answer> {
    let mut table = lent_table(&untouched(words / ENTRY_WORDS), words);
    Outcome {
        answer: call(table.words()),
        table,
        faults: Lent::default(),
    }
}

/// The second implementation's call, with as many entries as fit into `words`
/// words.
pub fn by_second<Answer>(
    words: usize,
    call: impl FnOnce(&mut [Record]) -> Answer,
) -> Outcome<Answer> {
    let mut table = untouched(words / ENTRY_WORDS);
    Outcome {
        answer: call(&mut table),
        table: lent_table(&table, words),
        faults: Lent::default(),
    }
}

pub fn compare<Answer: PartialEq + Debug>(
    pool: &LentPool,
    library: Outcome<Answer>,
    second: Outcome<Answer>,
    number: impl FnOnce(&Answer) -> u32,
) -> Compared {
    let difference = if library.answer != second.answer {
        Some(format!("{:?} against {:?}", library.answer, second.answer))
    } else if pool.is_changed() {
        Some("the pool was changed".into())
    } else {
        let table = library.table.parting("table", &second.table);
        table.or_else(|| library.faults.parting("faults", &second.faults))
    };
    Compared {
        number: number(&second.answer),
        difference,
    }
}

/// Entries that no call writes by chance and that all differ.
pub fn untouched(entries: usize) -> Vec<Record> {
    let entry = |index: usize| Record {
        start: noise(4 * index),
        length: noise(4 * index + 1),
        kind: KINDS[index % KINDS.len()],
        id: noise(4 * index + 2),
        parent: noise(4 * index + 3),
    };
    (0..entries).map(entry).collect()
}

/// Faults that no call writes by chance and that all differ.
fn untouched_faults(count: usize) -> Vec<Fault> {
    let fault = |index: usize| Fault {
        record: noise(5 * index),
        rule: noise(5 * index + 1) as u8,
        item: noise(5 * index + 2),
        id: noise(5 * index + 3),
        parent: noise(5 * index + 4),
    };
    (0..count).map(fault).collect()
}

pub fn lent_table(entries: &[Record], words: usize) -> Lent {
    Lent::new(entries.iter().map(library::words_of), words)
}

fn lent_faults(faults: &[Fault], words: usize) -> Lent {
    Lent::new(faults.iter().map(library::words_of_fault), words)
}
