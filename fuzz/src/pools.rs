//! One pool, with a table and a fault buffer around what it needs.

use crate::bytes::Bytes;
use crate::filler::Filler;
use compare::calls::{self, Compared};
use compare::exchange::{judge_by_both, Order};
use compare::lent::LentPool;
use compare::library::{ENTRY_WORDS, FAULT_WORDS};
use compare::queries::Query;
use compare::verdict::Verdict;
use compare::views::{views, View};

/// Bytes of the arguments, and where some of them begin.
pub const ARGUMENTS: usize = 18;
pub const WIDE_AT: usize = 0;
pub const ID_AT: usize = 7;
pub const COMMAND_AT: usize = 9;
pub const ELEMENT_AT: usize = 10;
pub const DDI_AT: usize = 12;
pub const VALUE_AT: usize = 14;
/// Records whose fields are read, the last ones of the pool.
const VIEWED: usize = 4;

pub fn compare(bytes: &mut Bytes) -> Result<(), String> {
    let wide = bytes.wide();
    let (more_entries, more_words) = (bytes.more(), bytes.more());
    let filler = Filler::take(bytes);
    let word = bytes.word();
    let id = wide.number(0, word, 16);
    let order = Order {
        command: wide.number(1, bytes.byte(), 8),
        element: wide.number(2, bytes.word(), 16),
        ddi: bytes.word(),
        value: bytes.signed(),
    };
    let pool = filler.around(bytes.rest());
    let verdict = Verdict::of(&pool);
    let entries = verdict.records.len().saturating_add_signed(more_entries);
    let table = ENTRY_WORDS * entries;
    let faults = (FAULT_WORDS * verdict.faults.len()).saturating_add_signed(more_words);
    let lent = &LentPool::new(&pool);
    agree("reading", calls::read(lent, table))?;
    agree("checking", calls::check(lent, table, faults))?;
    agree("a text", Query::Text(id).compare(lent, table))?;
    agree("labels", Query::Labels.compare(lent, table))?;
    judge_by_both(&pool, table, order).map_err(|what| format!("{order:?}: {what}"))?;
    // At the starts of some records, and at a place that the input names.
    let records = verdict.records.iter().rev().take(VIEWED);
    for start in records.map(|record| record.start).chain([word]) {
        fields(lent, start, order.ddi)?;
    }
    Ok(())
}

/// Everything that can be read there, and an entry that the input names.
fn fields(pool: &LentPool, start: u16, n: u16) -> Result<(), String> {
    for view in views(pool.bytes(), start).chain([View::Entry(n)]) {
        let read = view.by_both(pool.bytes(), start);
        read.map_err(|what| format!("{view:?} at {start}: {what}"))?;
    }
    match pool.is_changed() {
        true => Err("the pool was changed by reading fields".into()),
        false => Ok(()),
    }
}

fn agree(call: &str, compared: Compared) -> Result<(), String> {
    match compared.difference {
        Some(what) => Err(format!("{call}: {what}")),
        None => Ok(()),
    }
}
