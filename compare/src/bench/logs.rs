//! Log records read and written, and logs read.

use super::items;
use super::keep;
use super::table::{grouped, Group, Row, Unit};
use super::times::{time, Rounds, Side};
use crate::library::Of;
use crate::logs::{
    read_log_into, read_record_into, write_record, Draft, Fields, Log, Reading, Record, Whole,
    Writing,
};
use crate::random::Random;
use std::hint::black_box;

const SEED: u64 = 11783;
/// The layouts with all optional fields, and with north, east and status.
const ALL: u32 = 0x1FF;
const THREE: u32 = 0x00B;
/// The most values of a record.
const MOST_VALUES: usize = 255;

/// How many records of a kind are worked through together, and how many values
/// in a round, which makes it long compared with the clock's resolution.
const ITEMS: usize = 200;
const ROUND_VALUES: usize = 100_000;
/// The time that a record takes besides its values, as a number of values.
const HEAD: usize = 20;

/// Records of a day, one per second.
const DAY: usize = 86_400;
const LOG_ROUNDS: usize = 101;

/// Kinds of records: a name, the layout and the count of values.
const RECORDS: [(&str, u32, usize); 4] = [
    ("0x00B, 2 values", THREE, 2),
    ("0x1FF, 10 values", ALL, 10),
    ("0x1FF, 30 values", ALL, 30),
    ("0x1FF, 255 values", ALL, MOST_VALUES),
];

/// Kinds of logs: a name, the layout and the least and most count of values.
const LOGS: [(&str, u32, usize, usize); 5] = [
    ("0x1FF, 30 values", ALL, 30, 30),
    ("0x1FF, 0 to 30 values", ALL, 0, 30),
    ("0x1FF, 10 values", ALL, 10, 10),
    ("0x00B, 2 values", THREE, 2, 2),
    ("0x000, no value", 0, 0, 0),
];

/// A record, with its fields as each side takes them, so that only the call is
/// timed.
struct Item {
    draft: Draft,
    fields: Fields,
    bytes: Vec<u8>,
}

/// Memory that is lent to calls.
struct Lent {
    record: Record,
    to: Vec<u8>,
    ordinals: Vec<u8>,
    values: Vec<i32>,
}

/// Log records read and written.
pub fn bench_records() -> Result<Group, String> {
    let random = &mut Random::new(SEED);
    let mut rows = Vec::new();
    for (name, layout, count) in RECORDS {
        let drawn = (0..ITEMS).map(|_| Item::draw(random, layout, count));
        let items: Vec<Item> = drawn.collect();
        items.iter().try_for_each(Item::compare)?;
        let repeats = ROUND_VALUES / (ITEMS * (HEAD + count)) + 1;
        let (ours, theirs) = (&mut Lent::new(), &mut Lent::new());
        rows.push(items::bench(
            format!("{name}, read"),
            &items,
            repeats,
            |item| item.read_by_library(ours),
            |item| item.read_by_second(theirs),
        ));
        rows.push(items::bench(
            format!("{name}, written"),
            &items,
            repeats,
            |item| item.write_by_library(ours),
            |item| item.write_by_second(theirs),
        ));
    }
    Ok(Group {
        name: "log records",
        of: "log record".into(),
        unit: Unit::Nanoseconds,
        beside: items::RATE,
        rows,
    })
}

impl Item {
    fn draw(random: &mut Random, layout: u32, count: usize) -> Self {
        let draft = Draft::under(random, layout, count, count);
        let (fields, bytes) = (Fields::of(&draft.fields), draft.bytes());
        Item {
            draft,
            fields,
            bytes,
        }
    }

    /// Has both sides do all work once.
    fn compare(&self) -> Result<(), String> {
        let read = Reading::of(&self.bytes, &self.draft).by_both();
        let read = read.map_err(|what| format!("a log record read: {what}"))?;
        let written = Writing::of(&self.draft).by_both();
        let (_, bytes) = written.map_err(|what| format!("a log record written: {what}"))?;
        if read.is_of(&self.draft) && bytes == self.bytes {
            Ok(())
        } else {
            Err(format!("a log record, which is not {:?}", self.draft))
        }
    }

    fn read_by_library(&self, lent: &mut Lent) {
        let (layout, logged) = (self.draft.layout, self.draft.logged);
        let (ordinals, values) = (black_box(&mut lent.ordinals), black_box(&mut lent.values));
        let record = black_box(&mut lent.record);
        read_record_into(record, &self.bytes, layout, logged, ordinals, values);
    }

    fn read_by_second(&self, lent: &mut Lent) {
        let (layout, logged) = (self.draft.layout, self.draft.logged);
        let (ordinals, values) = (black_box(&mut lent.ordinals), black_box(&mut lent.values));
        keep(second::read_record(
            &self.bytes,
            layout,
            logged,
            ordinals,
            values,
        ));
    }

    fn write_by_library(&self, lent: &mut Lent) {
        let draft = &self.draft;
        keep(write_record(
            black_box(&mut lent.to),
            draft.layout,
            &self.fields,
            draft.logged,
            &draft.ordinals,
            &draft.values,
            draft.count(),
        ));
    }

    fn write_by_second(&self, lent: &mut Lent) {
        let draft = &self.draft;
        keep(second::write_record(
            black_box(&mut lent.to),
            draft.layout,
            &draft.fields,
            draft.logged,
            &draft.ordinals,
            &draft.values,
            draft.count(),
        ));
    }
}

impl Lent {
    /// Memory that is enough for every record.
    fn new() -> Self {
        Lent {
            record: Record::default(),
            to: vec![0; 2_000],
            ordinals: vec![0; MOST_VALUES],
            values: vec![0; MOST_VALUES],
        }
    }
}

/// Logs read. Next to the times is the library's rate.
pub fn bench_logs() -> Result<Group, String> {
    let random = &mut Random::new(SEED);
    let mut rows = Vec::new();
    for (name, layout, least, most) in LOGS {
        let mut bytes = Vec::new();
        let mut header = Draft::under(random, layout, most, 0);
        for _ in 0..DAY {
            let count = random.between(least, most);
            header = Draft::under(random, layout, most, count);
            bytes.extend(header.bytes());
        }
        match Whole::of(&bytes, &header).by_both() {
            Ok(log) if (log.number, log.count) == (0, DAY) => {}
            log => return Err(format!("a log of {name}: {log:?}")),
        }
        let pair = time_log(&bytes, layout, most).pair();
        let size = bytes.len() as f64;
        rows.push(Row {
            beside: Some(pair.library.rate(size)),
            ..Row::new(format!("{name}, {:.1} MB", size / 1e6), pair)
        });
    }
    Ok(Group {
        name: "logs",
        of: format!("log of {} records", grouped(DAY)),
        unit: Unit::Microseconds,
        beside: "MB/s",
        rows,
    })
}

fn time_log(bytes: &[u8], layout: u32, most: usize) -> Rounds {
    let mut rounds = Rounds::default();
    let mut log = Log::default();
    for _ in 0..LOG_ROUNDS {
        let bytes = black_box(bytes);
        rounds.push(|side| match side {
            Side::Library => time(1, || {
                read_log_into(&mut log, bytes, layout, most);
                keep(log);
            }),
            Side::Second => time(1, || keep(second::read_log(bytes, layout, most))),
        });
    }
    rounds
}
