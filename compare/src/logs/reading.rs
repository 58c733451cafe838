//! Log records read by both sides.

use super::draft::{draw_count, draw_layout, Draft, HEADER_COUNTS};
use super::hex;
use super::ladder::Ladder;
use super::library::{self, Record};
use super::plan;
use super::rules::{place, Causes, PAIR_BYTES, READING, WIDTHS};
use super::vector::Vector;
use crate::lent::{untouched, LentArea, LentPool, Place};
use crate::library::Of;
use crate::part::Part;
use crate::random::Random;

const LADDER: Ladder = Ladder {
    name: "log records read",
    titles: ["log record read", "log record read, how"],
    order: READING,
    ways: &[
        "0 to the end",
        "0 with more behind",
        "40 no byte",
        "40 before the count",
        "40 behind it",
        "46 by ordinals",
        "46 by values",
        "46 by both",
        "others",
    ],
};
/// How many bytes are put after a record.
const BEHIND: [usize; 3] = [1, 5, 90];

/// A record to be read from the start of the bytes.
#[derive(Clone, Copy)]
pub struct Reading<'a> {
    pub bytes: &'a [u8],
    pub layout: u32,
    pub logged: usize,
    /// Lengths of the lists of ordinals and values.
    pub lists: [usize; 2],
}

/// What both sides gave, and the lists they left.
#[derive(Debug)]
pub struct Read {
    record: Record,
    ordinals: Vec<u8>,
    values: Vec<i32>,
}

/// The lists of one side.
struct Lists {
    ordinals: LentArea<u8>,
    values: LentArea<i32>,
}

impl Lists {
    fn new([ordinals, values]: [usize; 2]) -> Self {
        Lists {
            ordinals: LentArea::new(&untouched(ordinals)),
            values: LentArea::new(&untouched(values)),
        }
    }
}

impl<'a> Reading<'a> {
    /// Reads these bytes under the draft's header, with lists that just
    /// suffice.
    pub fn of(bytes: &'a [u8], draft: &Draft) -> Self {
        Reading {
            bytes,
            layout: draft.layout,
            logged: draft.logged,
            lists: [draft.count(); 2],
        }
    }

    /// Has both sides read, and gives what both gave or where they differ: in
    /// the record, the bytes, a list or a guard.
    pub fn by_both(self) -> Result<Read, String> {
        let (layout, logged) = (self.layout, self.logged);
        let bytes = LentPool::new(self.bytes);
        let (mut ours, mut theirs) = (Lists::new(self.lists), Lists::new(self.lists));
        let (ordinals, values) = (ours.ordinals.contents_mut(), ours.values.contents_mut());
        let library = library::read_record(bytes.bytes(), layout, logged, ordinals, values);
        let (ordinals, values) = (theirs.ordinals.contents_mut(), theirs.values.contents_mut());
        let second = second::read_record(self.bytes, layout, logged, ordinals, values);
        let second = Record::of(second);
        if library != second {
            return Err(format!("{library:?} against {second:?}"));
        }
        if bytes.is_changed() {
            return Err("the bytes were changed".into());
        }
        let ordinals = ours.ordinals.parting("ordinals", &theirs.ordinals);
        let parting = ordinals.or_else(|| ours.values.parting("values", &theirs.values));
        let read = Read {
            record: library,
            ordinals: ours.ordinals.contents().to_vec(),
            values: ours.values.contents().to_vec(),
        };
        match parting {
            Some(difference) => Err(difference),
            None if library.number != 0 && !read.holds(&[], &[]) => {
                Err("a list was changed by a refusal".into())
            }
            None => Ok(read),
        }
    }

    /// The same for bytes that start with this draft's. Unless it is refused,
    /// the whole draft must be read.
    fn of_known(self, draft: &Draft) -> Result<Read, String> {
        let read = self.by_both()?;
        if read.record.number != 0 || read.is_of(draft) {
            Ok(read)
        } else {
            Err(format!("{read:?} where {draft:?} is known"))
        }
    }

    /// How the number came about.
    fn way(self, number: u32) -> &'static str {
        let count_at = place(self.layout, WIDTHS.len());
        let count = self.bytes.get(count_at).map_or(0, |&it| usize::from(it));
        let short = self.lists.map(|length| length < count);
        match (number, short) {
            (0, _) if self.bytes.len() == count_at + 1 + PAIR_BYTES * count => "0 to the end",
            (0, _) => "0 with more behind",
            (40, _) if self.bytes.is_empty() => "40 no byte",
            (40, _) if self.bytes.len() <= count_at => "40 before the count",
            (40, _) => "40 behind it",
            (46, [true, false]) => "46 by ordinals",
            (46, [false, true]) => "46 by values",
            (46, _) => "46 by both",
            _ => "others",
        }
    }

    fn describe(self) -> String {
        let Reading { layout, logged, .. } = self;
        let ([ordinals, values], bytes) = (self.lists, hex(self.bytes));
        format!(
            "layout {layout:#05X}, {logged} log values, \
             lists of {ordinals} and {values}, bytes {bytes}"
        )
    }
}

impl Read {
    /// Whether exactly this draft was read.
    pub fn is_of(&self, draft: &Draft) -> bool {
        self.record == draft.record() && self.holds(&draft.ordinals, &draft.values)
    }

    /// Whether the lists hold these and nothing else.
    fn holds(&self, ordinals: &[u8], values: &[i32]) -> bool {
        starts_alone(&self.ordinals, ordinals) && starts_alone(&self.values, values)
    }
}

/// Whether the list begins with `start` and is untouched after it.
fn starts_alone<T: Place>(list: &[T], start: &[T]) -> bool {
    let noise = (start.len()..list.len()).map(T::noise);
    list.starts_with(start) && noise.eq(list[start.len()..].iter().copied())
}

/// Fixed records, and `seeded` seeded ones.
pub fn compare(vector: &Vector, seed: u64, seeded: u64) -> Part {
    let mut part = LADDER.part(None);
    compare_vector(&mut part, vector);
    let random = &mut Random::new(seed ^ 0x10C0);
    for draft in plan::every_size(random) {
        let bytes = draft.bytes();
        every_list(&mut part, &draft, &bytes);
        more_behind(&mut part, random, &draft);
        if plan::is_cut(&draft) {
            every_cut(&mut part, &draft, &bytes);
        }
    }
    for draft in plan::every_limit(random) {
        let bytes = draft.bytes();
        let asked = Reading::of(&bytes, &draft);
        take(&mut part, asked, asked.of_known(&draft));
        if random.one_in(2) {
            let asked = short_lists(random, &asked);
            take(&mut part, asked, asked.of_known(&draft));
        } else {
            more_behind(&mut part, random, &draft);
        }
    }
    for index in 0..seeded {
        seeded_reading(&mut part, &mut Random::for_item(seed ^ 0x10C0, index));
    }
    part
}

fn take(part: &mut Part, asked: Reading, outcome: Result<Read, String>) {
    let causes = Causes::of_reading(asked.bytes, asked.layout, asked.logged, asked.lists);
    let number = outcome.map(|read| read.record.number);
    let outcome = number.map(|number| (number, asked.way(number)));
    LADDER.take(part, causes, outcome, || asked.describe());
}

fn compare_vector(part: &mut Part, vector: &Vector) {
    let asked = Reading::of(&vector.bytes, &vector.draft);
    let outcome = asked.of_known(&vector.draft).and_then(|read| {
        let record = read.record;
        match record == vector.record {
            true => Ok(read),
            false => Err(format!("{record:?} where {:?} is known", vector.record)),
        }
    });
    take(part, asked, outcome);
    every_cut(part, &vector.draft, &vector.bytes);
}

/// Lists of lengths around what the record needs, also different from each
/// other.
fn every_list(part: &mut Part, draft: &Draft, bytes: &[u8]) {
    let count = draft.count();
    for ordinals in plan::around(count) {
        for values in plan::around(count) {
            let asked = Reading {
                lists: [ordinals, values],
                ..Reading::of(bytes, draft)
            };
            take(part, asked, asked.of_known(draft));
        }
    }
}

fn every_cut(part: &mut Part, draft: &Draft, bytes: &[u8]) {
    for length in 0..bytes.len() {
        let asked = Reading::of(&bytes[..length], draft);
        take(part, asked, asked.by_both());
    }
}

/// Bytes after a record do not matter, whatever they are.
fn more_behind(part: &mut Part, random: &mut Random, draft: &Draft) {
    let mut bytes = draft.bytes();
    let more = random.pick(&BEHIND);
    let filler = random.pick(&[0, 255]);
    bytes.extend((0..more).map(|_| filler));
    let more = random.below(8);
    let mut asked = Reading::of(&bytes, draft);
    asked.lists = asked.lists.map(|length| length + more);
    take(part, asked, asked.of_known(draft));
}

/// The same with one list or both shorter by one, if there is a value.
fn short_lists<'a>(random: &mut Random, asked: &Reading<'a>) -> Reading<'a> {
    let [ordinals, values] = asked.lists;
    let less = random.pick(&[[1, 0], [0, 1], [1, 1]]);
    Reading {
        lists: [
            ordinals.saturating_sub(less[0]),
            values.saturating_sub(less[1]),
        ],
        ..*asked
    }
}

/// A record that is sound, broken in some ways, or no record at all.
fn seeded_reading(part: &mut Part, random: &mut Random) {
    let (layout, count) = (draw_layout(random), draw_count(random));
    let mut draft = Draft::draw(random, layout, count);
    for number in 41..=45 {
        if random.one_in(12) {
            draft.breach(random, number);
        }
    }
    let mut bytes = draft.bytes();
    let is_known = match random.below(8) {
        0 => {
            plan::change(random, &mut bytes);
            false
        }
        1 => {
            bytes.truncate(random.below(bytes.len()));
            false
        }
        2 => {
            bytes = plan::any_bytes(random, 80);
            false
        }
        3 | 4 => {
            bytes.extend(plan::any_bytes(random, 90));
            true
        }
        _ => true,
    };
    let mut asked = Reading::of(&bytes, &draft);
    if random.one_in(8) {
        asked.logged = random.pick(&HEADER_COUNTS);
    }
    asked = match random.below(6) {
        0 => short_lists(random, &asked),
        1 => Reading {
            lists: [random.between(0, 300), random.between(0, 300)],
            ..asked
        },
        2 | 3 => Reading {
            lists: [255; 2],
            ..asked
        },
        _ => asked,
    };
    let outcome = if is_known {
        asked.of_known(&draft)
    } else {
        asked.by_both()
    };
    take(part, asked, outcome);
}
