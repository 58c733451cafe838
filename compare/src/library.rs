//! Reading and checking by the proved static library, through its bindings, and
//! the second implementation's answers in the library's form.

pub use lachsbrille::c::text_is_sound;

use lachsbrille::c::{self, Record as TableEntry};
use second::{Fault, Kind, Record, Refusal};

/// Words of a table entry.
pub const ENTRY_WORDS: usize = TableEntry::WORDS;
/// Words of a fault.
pub const FAULT_WORDS: usize = lachsbrille::Fault::WORDS;

/// A place that no call gives: it shows that none was written.
pub const UNWRITTEN: usize = usize::MAX;

/// Converts what the second implementation gives into the library's form.
pub trait Of<Theirs> {
    fn of(theirs: Theirs) -> Self;
}

/// What reading and checking give: number 0 with the count of records or
/// faults, or a refusal's number with its place.
#[derive(Clone, Copy, Debug, PartialEq, Eq)]
pub struct Answer {
    pub number: u32,
    pub value: usize,
}

/// Reads `pool` with the proved library; the table consists of words.
pub fn read(pool: &[u8], table: &mut [u16]) -> Answer {
    let mut value = UNWRITTEN;
    let number = c::read(pool, TableEntry::table(table), &mut value);
    Answer { number, value }
}

/// Checks `pool` with the proved library; table and faults consist of words.
pub fn check(pool: &[u8], table: &mut [u16], faults: &mut [u16]) -> Answer {
    let mut value = UNWRITTEN;
    let number = c::check(pool, TableEntry::table(table), faults, &mut value);
    Answer { number, value }
}

impl Of<Result<usize, Refusal>> for Answer {
    fn of(result: Result<usize, Refusal>) -> Self {
        match result {
            Ok(count) => Answer {
                number: 0,
                value: count,
            },
            Err(refusal) => Answer {
                number: refusal.number.into(),
                value: refusal.place,
            },
        }
    }
}

/// The same entry as the library would write it.
pub fn words_of(record: &Record) -> [u16; ENTRY_WORDS] {
    let kind = match record.kind {
        Kind::Dvc => 1,
        Kind::Det => 2,
        Kind::Dpd => 3,
        Kind::Dpt => 4,
        Kind::Dvp => 5,
    };
    [record.start, record.length, kind, record.id, record.parent]
}

/// The same fault as the library would write it.
pub fn words_of_fault(fault: &Fault) -> [u16; FAULT_WORDS] {
    let rule = fault.rule.into();
    [fault.record, rule, fault.item, fault.id, fault.parent]
}
