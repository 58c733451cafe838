//! Transfers and activation of a sound pool of the greatest length.

use super::case::Case;
use super::keep;
use super::table::{grouped, Group, Row, Unit};
use super::times::{time, Rounds, Side};
use crate::library::{Of, ENTRY_WORDS};
use crate::sessions::{longest, Call, Client, Value};
use lachsbrille::c::{session_activate, session_transfer, Record as TableEntry, Step};
use second::{Record, Session, Stage};
use std::hint::black_box;

/// Bytes that a frame of a transport message carries.
const FRAME: usize = 7;
const ROUNDS: usize = 401;
/// Microseconds of a round: long compared with the clock's resolution.
const ROUND: f64 = 500.0;

#[derive(Clone, Copy)]
enum Work {
    /// Transfers the whole pool in pieces of this length.
    Transfer(usize),
    Activate,
}

/// Each side's areas, and the pool that is sent. The arguments of a call are
/// made beforehand, so that only the call is timed.
struct Bench {
    pool: Vec<u8>,
    /// The session after the offer, and when the whole pool has arrived.
    offered: Value,
    arrived: Value,
    staging: Vec<u8>,
    kept: Vec<u8>,
    table_words: Vec<u16>,
    table: Vec<Record>,
}

pub fn bench() -> Result<Group, String> {
    let mut bench = Bench::new(&Case::new(&longest()));
    let length = bench.pool.len();
    let mut rows = Vec::new();
    for (name, work) in [
        ("transfer in pieces of 7 bytes", Work::Transfer(FRAME)),
        ("transfer in one piece", Work::Transfer(length)),
        ("activate", Work::Activate),
    ] {
        bench.compare(work)?;
        let rounds = Rounds::take(ROUNDS, ROUND, |side, calls| bench.time(side, work, calls));
        rows.push(Row::new(name, rounds.pair()));
    }
    Ok(Group {
        name: "sessions",
        of: format!("sound pool of {} bytes", grouped(length)),
        unit: Unit::Microseconds,
        beside: "",
        rows,
    })
}

impl Bench {
    fn new(case: &Case) -> Self {
        let pool = case.pool.clone();
        let length = pool.len();
        Bench {
            offered: Value::of(session(length, 0)),
            arrived: Value::of(session(length, length)),
            staging: pool.clone(),
            kept: pool.clone(),
            table_words: vec![0; ENTRY_WORDS * case.records()],
            table: vec![Record::default(); case.records()],
            pool,
        }
    }

    /// Has both sides take and activate the pool, and compares each call.
    fn compare(&self, work: Work) -> Result<(), String> {
        let length = match work {
            Work::Transfer(length) => length,
            Work::Activate => self.pool.len(),
        };
        let area = vec![0; self.pool.len()];
        let mut client = Client::new(&area, &area);
        let mut calls = vec![Call::Offer(self.pool.len())];
        let pieces = self.pool.chunks(length);
        calls.extend(pieces.map(|piece| Call::Transfer(piece.into())));
        calls.push(Call::Activate(self.table_words.len()));
        for call in calls {
            let step = client.call(call)?;
            if step.number != 0 {
                return Err(format!("a session call, which gives {}", step.number));
            }
        }
        Ok(())
    }

    fn time(&mut self, side: Side, work: Work, calls: usize) -> f64 {
        match side {
            Side::Library => time(calls, || self.by_library(work)),
            Side::Second => time(calls, || self.by_second(work)),
        }
    }

    fn by_library(&mut self, work: Work) {
        match work {
            Work::Transfer(length) => {
                let mut step = Step::default();
                let mut value = black_box(self.offered);
                let staging = black_box(&mut self.staging[..]);
                for piece in black_box(&self.pool[..]).chunks(length) {
                    session_transfer(&mut step, value, piece, staging);
                    value = step.session;
                }
                keep(value);
            }
            Work::Activate => {
                let mut step = Step::default();
                let value = black_box(self.arrived);
                let staging = black_box(&self.staging[..]);
                let table = TableEntry::table(&mut self.table_words);
                session_activate(&mut step, value, staging, &mut self.kept, table);
                keep(step);
            }
        }
    }

    fn by_second(&mut self, work: Work) {
        match work {
            Work::Transfer(length) => {
                let mut session = black_box(session(self.pool.len(), 0));
                let staging = black_box(&mut self.staging[..]);
                for piece in black_box(&self.pool[..]).chunks(length) {
                    session = session.transfer(piece, staging).session;
                }
                keep(session);
            }
            Work::Activate => {
                let length = self.pool.len();
                let session = black_box(session(length, length));
                let staging = black_box(&self.staging[..]);
                keep(session.activate(staging, &mut self.kept, &mut self.table));
            }
        }
    }
}

/// The session after an offer of this size, with `received` bytes arrived.
fn session(announced: usize, received: usize) -> Session {
    Session {
        stage: Stage::Offered,
        announced,
        received,
        kept: 0,
        active: false,
    }
}
