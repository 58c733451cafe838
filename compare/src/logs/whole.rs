//! Whole logs read by both sides.

use super::draft::{draw_count, draw_layout, Draft, HEADER_COUNTS};
use super::hex;
use super::ladder::Ladder;
use super::library::{self, Log};
use super::plan::{self, SOME_LAYOUTS};
use super::rules::{Causes, LOG};
use super::vector::Vector;
use crate::lent::LentPool;
use crate::library::Of;
use crate::part::Part;
use crate::random::Random;

const LADDER: Ladder = Ladder {
    name: "logs read",
    titles: ["log read", "log read, how"],
    order: LOG,
    ways: &[
        "0 no record",
        "0 one record",
        "0 more",
        "refused at first",
        "refused later",
        "47",
    ],
};
/// The counts of values in the records of a short log.
const COUNTS: [usize; 6] = [2, 0, 1, 17, 0, 3];
/// Header counts under which logs are torn and changed.
const HEADERS: [usize; 2] = [20, 256];
/// Records of a day, one per second.
const DAY: usize = 86_400;

/// A log to be read.
#[derive(Clone, Copy)]
pub struct Whole<'a> {
    pub bytes: &'a [u8],
    pub layout: u32,
    pub logged: usize,
}

impl<'a> Whole<'a> {
    /// Reads these bytes under the draft's header.
    pub fn of(bytes: &'a [u8], draft: &Draft) -> Self {
        Whole {
            bytes,
            layout: draft.layout,
            logged: draft.logged,
        }
    }

    /// Has both sides read, and gives what both gave or where they differ.
    pub fn by_both(self) -> Result<Log, String> {
        let Whole { layout, logged, .. } = self;
        let bytes = LentPool::new(self.bytes);
        let library = library::read_log(bytes.bytes(), layout, logged);
        let second = Log::of(second::read_log(self.bytes, layout, logged));
        if library != second {
            Err(format!("{library:?} against {second:?}"))
        } else if bytes.is_changed() {
            Err("the log was changed".into())
        } else {
            Ok(second)
        }
    }

    fn describe(self) -> String {
        let Whole { layout, logged, .. } = self;
        let bytes = hex(self.bytes);
        format!("layout {layout:#05X}, {logged} log values, bytes {bytes}")
    }
}

/// Fixed logs, and `seeded` seeded ones.
pub fn compare(vector: &Vector, seed: u64, seeded: u64) -> Part {
    let mut part = LADDER.part(None);
    let random = &mut Random::new(seed ^ 0x10C2);
    let known = Whole::of(&vector.bytes, &vector.draft);
    take_known(&mut part, known, vector.log);
    every_layout(&mut part, random);
    every_place(&mut part, random);
    for draft in plan::every_limit(random) {
        between_others(&mut part, random, &draft);
    }
    a_day(&mut part, random);
    for index in 0..seeded {
        seeded_log(&mut part, &mut Random::for_item(seed ^ 0x10C2, index));
    }
    part
}

fn take(part: &mut Part, asked: Whole) {
    let (causes, owed) = Causes::of_log(asked.bytes, asked.layout, asked.logged);
    let outcome = asked.by_both().and_then(|log| match log == owed {
        true => Ok((log.number, way(log))),
        false => Err(format!("{log:?} where {owed:?} is owed")),
    });
    LADDER.take(part, causes, outcome, || asked.describe());
}

/// The same for a log for which the answer is known.
fn take_known(part: &mut Part, asked: Whole, known: Log) {
    take(part, asked);
    match asked.by_both() {
        Ok(log) if log == known => {}
        log => part.note(&format!("{log:?} where {known:?} is known"), || {
            asked.describe()
        }),
    }
}

fn way(log: Log) -> &'static str {
    match (log.number, log.count, log.start) {
        (0, 0, _) => "0 no record",
        (0, 1, _) => "0 one record",
        (0, _, _) => "0 more",
        (47, _, _) => "47",
        (_, _, 0) => "refused at first",
        _ => "refused later",
    }
}

/// Records of one log. If the header has no log values, no record has a value.
fn records(random: &mut Random, layout: u32, logged: usize, counts: &[usize]) -> Vec<Draft> {
    let counts = counts.iter();
    counts
        .map(|&count| if logged == 0 { 0 } else { count })
        .map(|count| Draft::under(random, layout, logged, count))
        .collect()
}

fn joined(records: &[Draft]) -> Vec<u8> {
    records.iter().flat_map(Draft::bytes).collect()
}

/// Under every layout: logs without a record, with some, and with one of them
/// broken or cut.
fn every_layout(part: &mut Part, random: &mut Random) {
    for layout in plan::every_layout(random) {
        for logged in HEADER_COUNTS {
            let asked = Whole {
                bytes: &[],
                layout,
                logged,
            };
            take(part, asked);
        }
        let any = random.between(1, 255);
        let logged = random.pick(&[any, 255, 256, usize::MAX]);
        let sound = records(random, layout, logged, &COUNTS);
        for length in 0..=sound.len() {
            let bytes = joined(&sound[..length]);
            take(part, Whole::of(&bytes, &sound[0]));
        }
        for number in 41..=45 {
            for place in [0, 2, 3, sound.len() - 1] {
                let mut broken = sound.clone();
                broken[place].breach(random, number);
                take(part, Whole::of(&joined(&broken), &sound[0]));
            }
        }
        let bytes = joined(&sound);
        for cut in [1, 5, 15, 16, 21] {
            take(part, Whole::of(&bytes[..bytes.len() - cut], &sound[0]));
        }
    }
}

/// Some logs torn at every byte, and with every byte changed.
fn every_place(part: &mut Part, random: &mut Random) {
    for layout in SOME_LAYOUTS {
        for logged in HEADERS {
            let sound = records(random, layout, logged, &COUNTS);
            every_tear(part, &sound);
            every_change(part, &sound);
        }
    }
}

/// Torn between two records, a log has fewer of them; torn inside one, it is
/// refused there.
fn every_tear(part: &mut Part, sound: &[Draft]) {
    let bytes = joined(sound);
    let ends = (0..=sound.len()).map(|count| joined(&sound[..count]).len());
    let ends: Vec<usize> = ends.collect();
    for length in 0..=bytes.len() {
        let count = ends.iter().rposition(|&end| end <= length).unwrap_or(0);
        let known = match ends[count] {
            end if end == length => Log {
                number: 0,
                count,
                start: 0,
            },
            start => Log {
                number: 40,
                count: 0,
                start,
            },
        };
        take_known(part, Whole::of(&bytes[..length], &sound[0]), known);
    }
}

fn every_change(part: &mut Part, sound: &[Draft]) {
    let mut bytes = joined(sound);
    for at in 0..bytes.len() {
        let before = bytes[at];
        let near = [before ^ 1, before ^ 128, before.wrapping_add(1)];
        for byte in [0, 1, 16, 127, 255].into_iter().chain(near) {
            bytes[at] = byte;
            take(part, Whole::of(&bytes, &sound[0]));
        }
        bytes[at] = before;
    }
}

/// A record after a sound one and before another.
fn between_others(part: &mut Part, random: &mut Random, draft: &Draft) {
    let counts = [random.below(4), random.below(4)];
    let others = records(random, draft.layout, draft.logged, &counts);
    let bytes = [others[0].bytes(), draft.bytes(), others[1].bytes()].concat();
    take(part, Whole::of(&bytes, draft));
}

/// A day's log, whole and with its last record cut or broken.
fn a_day(part: &mut Part, random: &mut Random) {
    let (layout, count) = (0x1FF, 30);
    let mut last = Draft::under(random, layout, count, count);
    let mut bytes: Vec<u8> = (1..DAY)
        .flat_map(|_| Draft::under(random, layout, count, count).bytes())
        .collect();
    let start = bytes.len();
    bytes.extend(last.bytes());
    let whole = Log {
        count: DAY,
        ..Log::default()
    };
    take_known(part, Whole::of(&bytes, &last), whole);
    let refused = |number| Log {
        number,
        count: 0,
        start,
    };
    bytes.pop();
    take_known(part, Whole::of(&bytes, &last), refused(40));
    last.ordinals[count - 1] = count as u8;
    bytes.truncate(start);
    bytes.extend(last.bytes());
    take_known(part, Whole::of(&bytes, &last), refused(45));
}

/// A log of some records, whole, torn, broken or changed.
fn seeded_log(part: &mut Part, random: &mut Random) {
    let layout = draw_layout(random);
    let most = if random.one_in(500) {
        1_000
    } else {
        random.pick(&[0, 3, 8, 20])
    };
    let counts: Vec<usize> = (0..random.between(0, most))
        .map(|_| draw_count(random))
        .collect();
    let any = random.between(1, 256);
    let edge = random.pick(&HEADER_COUNTS);
    let logged = random.pick(&[any, any, edge]);
    let mut records = records(random, layout, logged, &counts);
    for number in 41..=45 {
        if random.one_in(6) && !records.is_empty() {
            let place = random.below(records.len());
            records[place].breach(random, number);
        }
    }
    let mut bytes = joined(&records);
    match random.below(6) {
        0 => bytes.truncate(random.between(0, bytes.len())),
        1 => plan::change(random, &mut bytes),
        2 => bytes.extend(plan::any_bytes(random, 40)),
        _ => {}
    }
    let asked = Whole {
        bytes: &bytes,
        layout,
        logged,
    };
    take(part, asked);
}
