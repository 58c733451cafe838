//! Log records written by both sides, and read back.

use super::draft::{bytes_of, draw_count, draw_layout, Draft, HEADER_COUNTS};
use super::ladder::{Ladder, MORE};
use super::library::{self, Fields, Written};
use super::plan;
use super::reading::Reading;
use super::rules::{place, Causes, MOST_VALUES, PAIR_BYTES, WIDTHS, WRITING};
use super::vector::Vector;
use super::whole::Whole;
use crate::grid::Grid;
use crate::lent::{untouched, LentArea};
use crate::library::Of;
use crate::part::Part;
use crate::random::Random;

const LADDER: Ladder = Ladder {
    name: "log records written",
    titles: ["log record written", "log record written, how"],
    order: WRITING,
    ways: &[
        "0 just fitting",
        "0 with room left",
        "46 no byte",
        "46 by one byte",
        "46 by more",
        "48 over 255",
        "48 by ordinals",
        "48 by values",
        "48 by both",
        "others",
    ],
};
const BACK: &[&str] = &["alone", "in a longer buffer", "as a log"];
/// Added to a count, they are lost if it is cut to a byte.
const WRAPPING: [usize; 4] = [1 << 8, 1 << 16, 1 << 32, usize::MAX - 255];
/// Longer than any record's lists.
const LONG_LIST: usize = 300;
const LONG_ROOM: usize = 2_000;

/// A record to be written: the draft's, with a given count and room.
#[derive(Clone, Copy)]
pub struct Writing<'a> {
    pub draft: &'a Draft,
    pub count: usize,
    pub room: usize,
}

impl<'a> Writing<'a> {
    /// All of the draft's values, into exactly as many bytes as they need.
    pub fn of(draft: &'a Draft) -> Self {
        let count = draft.count();
        Writing {
            draft,
            count,
            room: length(draft.layout, count),
        }
    }

    fn into(self, room: usize) -> Self {
        Writing { room, ..self }
    }

    /// Has both sides write, and gives what both gave and the bytes, or where
    /// they differ: in the answer, the bytes, a list or a guard.
    pub fn by_both(self) -> Result<(Written, Vec<u8>), String> {
        let Writing { count, room, .. } = self;
        let draft = self.draft;
        let (layout, fields, logged) = (draft.layout, &draft.fields, draft.logged);
        let before: Vec<u8> = untouched(room);
        let (mut ours, mut theirs) = (LentArea::new(&before), LentArea::new(&before));
        let ordinals = LentArea::new(&draft.ordinals);
        let values = LentArea::new(&draft.values);
        let lists = (ordinals.contents(), values.contents());
        let (to, given) = (ours.contents_mut(), Fields::of(fields));
        let library = library::write_record(to, layout, &given, logged, lists.0, lists.1, count);
        let (lists, to) = ((&draft.ordinals, &draft.values), theirs.contents_mut());
        let second = second::write_record(to, layout, fields, logged, lists.0, lists.1, count);
        let second = Written::of(second);
        if library != second {
            return Err(format!("{library:?} against {second:?}"));
        }
        let parting = ours
            .parting("the record", &theirs)
            .or_else(|| ordinals.parting("ordinals", &LentArea::new(&draft.ordinals)))
            .or_else(|| values.parting("values", &LentArea::new(&draft.values)));
        match parting {
            Some(difference) => Err(difference),
            None if given != Fields::of(fields) => Err("the fields were changed".into()),
            None => self.check(library, ours.contents()),
        }
    }

    /// Compares what both sides wrote with what they must write.
    fn check(self, written: Written, to: &[u8]) -> Result<(Written, Vec<u8>), String> {
        let due = self.causes().first(WRITING);
        if written.number != due {
            return Err(format!("{written:?} where {due} is due"));
        }
        let mut owed = Vec::new();
        if due == 0 {
            let draft = self.draft;
            let (ordinals, values) = (&draft.ordinals[..self.count], &draft.values[..self.count]);
            owed = bytes_of(draft.layout, &draft.fields, ordinals, values);
        }
        let length = owed.len();
        owed.extend(&untouched(self.room)[length..]);
        if written.length == length && to == owed {
            Ok((written, owed))
        } else {
            Err(format!("{written:?}, {to:02X?} where {owed:02X?} is owed"))
        }
    }

    fn causes(self) -> Causes {
        let draft = self.draft;
        let lists = (&draft.ordinals[..], &draft.values[..]);
        Causes::of_writing(
            draft.layout,
            &draft.fields,
            draft.logged,
            lists,
            self.count,
            self.room,
        )
    }

    /// How the number came about.
    fn way(self, written: Written) -> &'static str {
        let needed = || length(self.draft.layout, self.count);
        let is_short = |length: usize| length < self.count;
        let lists = [self.draft.ordinals.len(), self.draft.values.len()];
        match (written.number, lists.map(is_short)) {
            (0, _) if written.length == self.room => "0 just fitting",
            (0, _) => "0 with room left",
            (46, _) if self.room == 0 => "46 no byte",
            (46, _) if self.room + 1 == needed() => "46 by one byte",
            (46, _) => "46 by more",
            (48, [false, false]) => "48 over 255",
            (48, [true, false]) => "48 by ordinals",
            (48, [false, true]) => "48 by values",
            (48, _) => "48 by both",
            _ => "others",
        }
    }

    fn describe(self) -> String {
        let Writing { draft, count, room } = self;
        format!("count {count}, into {room} bytes, {draft:?}")
    }
}

/// Length of a record in bytes.
fn length(layout: u32, count: usize) -> usize {
    place(layout, WIDTHS.len()) + 1 + PAIR_BYTES * count
}

/// Fixed records, and `seeded` seeded ones.
pub fn compare(vector: &Vector, seed: u64, seeded: u64) -> Part {
    let back = Grid::new("log record read back", [""], BACK, |_, _| true);
    let mut part = LADDER.part(Some(back));
    compare_vector(&mut part, vector);
    let random = &mut Random::new(seed ^ 0x10C1);
    for draft in plan::every_size(random) {
        every_room(&mut part, &draft);
        every_list(&mut part, &draft);
        every_count(&mut part, random, &draft);
    }
    for draft in plan::every_limit(random) {
        let mut asked = Writing::of(&draft);
        take(&mut part, asked);
        match random.below(3) {
            0 => asked.room -= random.between(1, 7),
            1 => asked.room += random.between(1, 90),
            _ => asked.count += 1,
        }
        take(&mut part, asked);
    }
    for index in 0..seeded {
        seeded_writing(&mut part, &mut Random::for_item(seed ^ 0x10C1, index));
    }
    part
}

/// Has both sides write and, if that is not refused, read back.
fn take(part: &mut Part, asked: Writing) {
    let outcome = asked.by_both();
    let bytes = outcome.clone().ok().filter(|(it, _)| it.number == 0);
    let outcome = outcome.map(|(written, _)| (written.number, asked.way(written)));
    LADDER.take(part, asked.causes(), outcome, || asked.describe());
    if let Some((written, bytes)) = bytes {
        read_back(part, asked, &bytes, written.length);
    }
}

/// What was written is read by itself, with the bytes after it, and as a log.
fn read_back(part: &mut Part, asked: Writing, bytes: &[u8], length: usize) {
    let input = || format!("reading back, {}", asked.describe());
    let mut draft = asked.draft.clone();
    draft.ordinals.truncate(asked.count);
    draft.values.truncate(asked.count);
    let read = |bytes| match Reading::of(bytes, &draft).by_both()? {
        read if read.is_of(&draft) => Ok(()),
        read => Err(format!("{read:?} is read back")),
    };
    let alone = read(&bytes[..length]);
    part.take(MORE, 0, alone.map(|()| "alone"), input);
    if bytes.len() > length {
        let longer = read(bytes);
        part.take(MORE, 0, longer.map(|()| "in a longer buffer"), input);
    }
    let log = Whole::of(&bytes[..length], &draft).by_both();
    let log = log.and_then(|log| match (log.number, log.count) {
        (0, 1) => Ok("as a log"),
        _ => Err(format!("{log:?} where one record is owed")),
    });
    part.take(MORE, 0, log, input);
}

fn compare_vector(part: &mut Part, vector: &Vector) {
    let asked = Writing::of(&vector.draft);
    take(part, asked);
    match asked.by_both() {
        Ok((_, bytes)) if bytes == vector.bytes => {}
        written => part.note(&format!("{written:?} where the vector is known"), || {
            asked.describe()
        }),
    }
}

/// Room around what the record needs; every smaller room for some records.
fn every_room(part: &mut Part, draft: &Draft) {
    let asked = Writing::of(draft);
    for room in plan::around(asked.room) {
        take(part, asked.into(room));
    }
    take(part, asked.into(asked.room + 40));
    if plan::is_cut(draft) {
        for room in 1..asked.room - 1 {
            take(part, asked.into(room));
        }
    }
}

/// Lists of lengths around the count, also different from each other.
fn every_list(part: &mut Part, draft: &Draft) {
    let asked = Writing::of(draft);
    for ordinals in plan::around(draft.count()) {
        for values in plan::around(draft.count()) {
            let draft = &with_lists(draft, [ordinals, values]);
            take(part, Writing { draft, ..asked });
        }
    }
}

/// Counts below and above the lists' length, and above 255.
fn every_count(part: &mut Part, random: &mut Random, draft: &Draft) {
    let asked = Writing::of(draft);
    for count in [0, asked.count / 2, asked.count + 1] {
        take(part, Writing { count, ..asked });
    }
    let more = random.pick(&WRAPPING);
    let room = random.pick(&[asked.room, LONG_ROOM]);
    let count = asked.count + more;
    take(part, Writing { count, ..asked }.into(room));
    let draft = &with_lists(draft, [LONG_LIST; 2]);
    let wrapped = asked.count.min(LONG_LIST - 256) + 256;
    for count in [asked.count, wrapped] {
        let asked = Writing {
            draft,
            count,
            room: LONG_ROOM,
        };
        take(part, asked);
    }
}

/// The draft with its lists cut or extended. Ordinals that are added are 255,
/// which is too high if any ordinal is.
fn with_lists(draft: &Draft, [ordinals, values]: [usize; 2]) -> Draft {
    let mut draft = draft.clone();
    draft.ordinals.resize(ordinals, 255);
    draft.values.resize(values, -1);
    draft
}

/// A record that is sound or broken in some ways, with any lists and room.
fn seeded_writing(part: &mut Part, random: &mut Random) {
    let (layout, count) = (draw_layout(random), draw_count(random));
    let mut draft = Draft::draw(random, layout, count);
    for number in 41..=45 {
        if random.one_in(12) {
            draft.breach(random, number);
        }
    }
    if random.one_in(8) {
        draft.logged = random.pick(&HEADER_COUNTS);
    }
    let mut asked = Writing::of(&draft);
    match random.below(8) {
        0 => asked.room -= random.between(1, asked.room),
        1 => asked.room -= 1,
        2 | 3 => asked.room += random.between(1, 90),
        _ => {}
    }
    match random.below(16) {
        0 => asked.count = random.between(0, LONG_LIST),
        1 => asked.count += 1,
        2 => asked.count = MOST_VALUES + random.between(0, 2),
        3 => asked.count += random.pick(&WRAPPING),
        _ => {}
    }
    let lists = match random.below(6) {
        0 => [random.between(0, LONG_LIST), random.between(0, LONG_LIST)],
        1 => [count + random.below(2), count + random.below(2)],
        _ => [count; 2],
    };
    let draft = &with_lists(&draft, lists);
    take(part, Writing { draft, ..asked });
}
