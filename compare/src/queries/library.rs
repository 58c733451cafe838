//! The proved static library's answers to queries, through its bindings.

use crate::library::{Of, UNWRITTEN};
use lachsbrille::c::{self, DeviceLabels, Record as TableEntry};

/// Where a text is in the pool, or a refusal's number with zeros.
#[derive(Clone, Copy, Debug, PartialEq, Eq)]
pub struct TextAnswer {
    pub number: u32,
    pub from: usize,
    pub to: usize,
}

/// Asks the proved library for the text of the record with this ID.
pub fn text(pool: &[u8], table: &mut [u16], id: u32) -> TextAnswer {
    let (mut from, mut to) = (UNWRITTEN, UNWRITTEN);
    let table = TableEntry::table(table);
    let number = c::text(pool, table, id, &mut from, &mut to);
    TextAnswer { number, from, to }
}

/// Asks the proved library for the labels. Before the call the result holds
/// what no call gives, so that a field which is not written is noticed.
pub fn labels(pool: &[u8], table: &mut [u16]) -> DeviceLabels {
    const UNWRITTEN: u8 = 0xA5;
    let mut labels = DeviceLabels {
        number: u32::MAX,
        structure: [UNWRITTEN; 7],
        localization: [UNWRITTEN; 7],
        extended: [UNWRITTEN; 32],
        extended_length: u16::MAX,
    };
    c::labels(&mut labels, pool, TableEntry::table(table));
    labels
}

/// The same into a lent result, to be timed.
pub fn labels_into(labels: &mut DeviceLabels, pool: &[u8], table: &mut [u16]) {
    c::labels(labels, pool, TableEntry::table(table));
}

/// The same answer in the library's form; a text is a part of `pool`.
pub fn text_answer_of(pool: &[u8], result: Result<&[u8], u8>) -> TextAnswer {
    match result {
        Ok(text) => {
            let from = text.as_ptr() as usize - pool.as_ptr() as usize;
            TextAnswer {
                number: 0,
                from,
                to: from + text.len(),
            }
        }
        Err(number) => TextAnswer {
            number: number.into(),
            from: 0,
            to: 0,
        },
    }
}

impl Of<Result<second::Labels, u8>> for DeviceLabels {
    fn of(result: Result<second::Labels, u8>) -> Self {
        let (number, labels) = match result {
            Ok(labels) => (0, labels),
            Err(number) => (number.into(), second::Labels::default()),
        };
        DeviceLabels {
            number,
            structure: labels.structure,
            localization: labels.localization,
            extended: labels.extended,
            extended_length: labels.extended_len as u16,
        }
    }
}
