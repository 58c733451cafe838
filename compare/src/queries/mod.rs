//! Queries, which ask for texts and labels of accepted pools.

mod library;

use crate::bench::keep;
use crate::calls::{by_library, by_second, compare, Compared};
use crate::lent::LentPool;
use crate::library::{Of, ENTRY_WORDS};
use crate::verdict::{Effort, Verdict};
use lachsbrille::c::DeviceLabels;
use second::Record;
use std::collections::BTreeSet;

/// If a pool has at most this many IDs, all are asked for, otherwise mostly a
/// sample.
const FEW_IDS: usize = 30;
const SAMPLED_IDS: usize = 6;

#[derive(Clone, Copy, Debug)]
pub enum Query {
    /// The text of an ID.
    Text(u32),
    Labels,
}

impl Query {
    /// Asks both sides, with a table of `table` words.
    pub fn compare(self, pool: &LentPool, table: usize) -> Compared {
        match self {
            Query::Text(id) => text(pool, table, id),
            Query::Labels => labels(pool, table),
        }
    }

    /// Asks the library only, to be timed.
    pub fn by_library(self, pool: &[u8], table: &mut [u16], labels: &mut DeviceLabels) {
        match self {
            Query::Text(id) => keep(library::text(pool, table, id)),
            Query::Labels => library::labels_into(labels, pool, table),
        }
    }

    /// Asks the second implementation only, to be timed.
    pub fn by_second(self, pool: &[u8], table: &mut [Record]) {
        match self {
            Query::Text(id) => keep(second::text(pool, table, id)),
            Query::Labels => keep(second::labels(pool, table)),
        }
    }
}

/// The queries for a pool, each with the length of its table in words.
pub fn queries(verdict: &Verdict, effort: Effort) -> Vec<(Query, usize)> {
    let tables = tables(verdict, effort);
    let ids = ids(verdict, effort);
    let texts = ids.into_iter().map(|id| (Query::Text(id), tables[0]));
    // Other tables need one ID only: if a table is too short, it does not
    // matter.
    let other_tables = tables[1..].iter().map(|&table| (Query::Text(0), table));
    let labels = tables.iter().map(|&table| (Query::Labels, table));
    texts.chain(other_tables).chain(labels).collect()
}

/// Asks for the text of an ID, with a table of `table` words.
fn text(pool: &LentPool, table: usize, id: u32) -> Compared {
    let second = by_second(table, |table| {
        library::text_answer_of(pool.bytes(), second::text(pool.bytes(), table, id))
    });
    let library = by_library(table, |table| library::text(pool.bytes(), table, id));
    compare(pool, library, second, |answer| answer.number)
}

/// Asks for the labels, with a table of `table` words.
fn labels(pool: &LentPool, table: usize) -> Compared {
    let second = by_second(table, |table| {
        DeviceLabels::of(second::labels(pool.bytes(), table))
    });
    let library = by_library(table, |table| library::labels(pool.bytes(), table));
    compare(pool, library, second, |answer| answer.number)
}

/// Tables for texts and labels: just enough, too short by a word, longer.
fn tables(verdict: &Verdict, effort: Effort) -> Vec<usize> {
    if verdict.is_refused() {
        return vec![ENTRY_WORDS * verdict.most_entries];
    }
    let needed = verdict.needed();
    match effort {
        Effort::Little => vec![needed],
        _ => vec![needed, needed - 1, needed + ENTRY_WORDS + 1],
    }
}

/// The IDs to ask for: all or some of an accepted pool, with 65535 and some
/// that no record carries, even if one carries their lower half. For other
/// pools only a few.
fn ids(verdict: &Verdict, effort: Effort) -> BTreeSet<u32> {
    let carried: BTreeSet<u32> = (verdict.records.iter())
        .map(|record| record.id.into())
        .collect();
    let not_carried = |id: &u32| !carried.contains(id);
    let mut ids = BTreeSet::from([65_535, 65_536]);
    if effort >= Effort::Usual {
        ids.extend((1..=65_534).find(not_carried));
        ids.extend(carried.first());
    }
    if effort >= Effort::Usual && verdict.is_accepted() {
        let sample = match effort {
            Effort::Exhaustive => carried.len(),
            Effort::Full if carried.len() <= FEW_IDS => carried.len(),
            _ => SAMPLED_IDS,
        };
        ids.extend(carried.iter().step_by(carried.len().div_ceil(sample)));
        ids.extend(carried.last());
        ids.extend(carried.last().map(|id| id | 1 << 16));
        ids.extend(carried.first().map(|id| id | 1 << 31));
        ids.extend((1..=65_534).rev().find(not_carried));
    }
    ids
}
