//! Changes to the records of a pool.

use super::{put, texts};
use crate::pools::{COMMAND_AT, DDI_AT, ELEMENT_AT, ID_AT, VALUE_AT, WIDE_AT};
use crate::Group;
use compare::objects::{Object, GREATEST_SCALE, LEAST_SCALE};
use compare::random::Random;
use compare::shape::{KINDS, SHORTEST_RECORD};
use second::{read_pool, Kind, Record};

const ID: usize = 3;
/// Where the DDI is in process data and properties.
const DDI: usize = 5;
const TYPE: usize = 5;
const SCALE: usize = 9;
const LENGTHS: [u8; 9] = [0, 1, 31, 32, 33, 127, 128, 129, 255];
const SCALES: [u32; 6] = [
    LEAST_SCALE - 1,
    LEAST_SCALE,
    GREATEST_SCALE,
    GREATEST_SCALE + 1,
    0x7FC0_0000,
    0x8000_0000,
];

/// The pool with a change to its records or to the arguments before it; `None`
/// if it has no whole record.
pub fn mutate(random: &mut Random, arguments: &mut [u8], pool: &[u8]) -> Option<Vec<u8>> {
    let (mut records, tail) = divide(pool)?;
    for _ in 0..random.pick(&[1, 1, 1, 2, 4]) {
        if Group::of(arguments) == Group::Pool && random.one_in(6) {
            ask_for_known(random, arguments, &records);
        } else {
            change(random, &mut records);
        }
    }
    let changed: Vec<u8> = records.into_iter().flat_map(|it| it.bytes).collect();
    Some([&changed, tail].concat())
}

/// The records of one pool with some of another between them.
pub fn cross(random: &mut Random, pool: &[u8], other: &[u8]) -> Option<Vec<u8>> {
    let (mut records, tail) = divide(pool)?;
    let (others, _) = divide(other)?;
    for _ in 0..random.pick(&[1, 1, 2, 5]) {
        let at = random.below(records.len() + 1);
        records.insert(at, others[random.below(others.len())].clone());
    }
    let crossed: Vec<u8> = records.into_iter().flat_map(|it| it.bytes).collect();
    Some([&crossed, tail].concat())
}

#[derive(Clone)]
struct Whole {
    kind: Kind,
    bytes: Vec<u8>,
}

impl Whole {
    fn of(object: &Object) -> Self {
        let mut bytes = Vec::new();
        object.write(&mut bytes);
        Whole {
            kind: object.kind,
            bytes,
        }
    }

    fn word(&self, at: usize) -> u16 {
        let byte = |at: usize| self.bytes.get(at).copied().unwrap_or(0);
        u16::from_le_bytes([byte(at), byte(at + 1)])
    }

    fn put_word(&mut self, at: usize, word: u16) {
        put(&mut self.bytes, at, &word.to_le_bytes());
    }

    /// Where the length of the designator or unit text is.
    fn text_at(&self) -> usize {
        match self.kind {
            Kind::Dvc => 5,
            Kind::Det => 6,
            Kind::Dpd => 9,
            Kind::Dpt => 11,
            Kind::Dvp => 14,
        }
    }

    /// Where the text ends. After an earlier change, its length byte may say
    /// more than there is.
    fn behind_text(&self) -> usize {
        let at = self.text_at();
        let behind = at + 1 + usize::from(self.bytes[at]);
        behind.min(self.bytes.len())
    }

    /// How many entries of a device element's list are there.
    fn entries(&self) -> usize {
        let list = self.behind_text() + 6;
        let stated = usize::from(self.word(list - 2));
        stated.min(self.bytes.len().saturating_sub(list) / 2)
    }
}

/// The whole records that a pool starts with, and what is left after them.
fn divide(pool: &[u8]) -> Option<(Vec<Whole>, &[u8])> {
    let mut table = vec![Record::default(); pool.len() / SHORTEST_RECORD + 1];
    let (count, end) = match read_pool(pool, &mut table) {
        Ok(count) => (count, pool.len()),
        // Not a record, or a cut one.
        Err(refusal) if matches!(refusal.number, 3 | 4) => {
            let whole = &pool[..refusal.place];
            (read_pool(whole, &mut table).ok()?, refusal.place)
        }
        Err(_) => return None,
    };
    let records = table[..count].iter().map(|record| {
        let start = usize::from(record.start);
        Whole {
            kind: record.kind,
            bytes: pool[start..start + usize::from(record.length)].to_vec(),
        }
    });
    Some((records.collect(), &pool[end..]))
}

fn change(random: &mut Random, records: &mut Vec<Whole>) {
    let at = random.below(records.len());
    let other = random.below(records.len());
    let id = any_id(random, records);
    match random.below(12) {
        0 if records.len() > 1 => drop(records.remove(at)),
        1 => {
            let copy = records[at].clone();
            records.insert(other, copy);
        }
        2 => records.swap(at, other),
        3 => records[at].put_word(ID, id),
        4 => {
            let kind = random.pick(&KINDS);
            let fresh = Object::plain(kind, if kind == Kind::Dvc { 0 } else { id });
            records.insert(other, Whole::of(&fresh));
        }
        5 => change_text(random, &mut records[at]),
        6 => {
            let length = records[at].bytes.len();
            let place = random.below(length - ID) + ID;
            let any = random.byte();
            records[at].bytes[place] = random.pick(&[any, 0, 1, 7, 8, 32, 128, 254, 255]);
        }
        7 | 8 => refer(random, &mut records[at], id),
        _ => {
            let like = records[other].clone();
            change_number(random, &mut records[at], &like);
        }
    }
}

/// An ID of the pool or next to one, or one at an end of the range or where the
/// library's linked lists begin to be longer.
fn any_id(random: &mut Random, records: &[Whole]) -> u16 {
    let carried = records[random.below(records.len())].word(ID);
    let edge = random.pick(&[0, 1, 511, 512, 2_047, 2_048, 8_191, 8_192, 65_534, 65_535]);
    let next = carried.wrapping_add(1);
    random.pick(&[carried, carried, carried, next, edge])
}

fn change_text(random: &mut Random, record: &mut Whole) {
    let at = record.text_at();
    let end = record.behind_text();
    if random.one_in(8) {
        // Only the length, so that what follows is read differently.
        record.bytes[at] = random.pick(&LENGTHS);
        return;
    }
    let mut text = record.bytes[at + 1..end].to_vec();
    texts::change(random, &mut text);
    text.truncate(128);
    record.bytes[at] = text.len() as u8;
    record.bytes.splice(at + 1..end, text);
}

/// Makes the record name this ID, by its parent, presentation or an entry.
fn refer(random: &mut Random, record: &mut Whole, id: u16) {
    let behind = record.behind_text();
    match record.kind {
        Kind::Det => {
            let count = record.entries();
            let entry = behind + 6 + 2 * random.below(count.max(1));
            match random.below(4) {
                0 => record.put_word(behind + 2, id),
                1 if count > 0 => record.put_word(entry, id),
                2 if count > 0 => {
                    record.bytes.drain(entry..entry + 2);
                    record.put_word(behind + 4, count as u16 - 1);
                }
                _ => {
                    record.bytes.extend(id.to_le_bytes());
                    record.put_word(behind + 4, count as u16 + 1);
                }
            }
        }
        Kind::Dpd | Kind::Dpt => record.put_word(behind, id),
        Kind::Dvc | Kind::Dvp => {}
    }
}

/// Changes an element's number or type, a DDI or a scale, often to that of
/// another record.
fn change_number(random: &mut Random, record: &mut Whole, like: &Whole) {
    match record.kind {
        Kind::Det if random.one_in(4) => record.bytes[TYPE] = random.below(9) as u8,
        Kind::Det => {
            let others = like.word(like.behind_text());
            let number = random.pick(&[others, others, others ^ 1, 0, 4_095, 4_096, 65_535]);
            let at = record.behind_text();
            record.put_word(at, number);
        }
        Kind::Dpd | Kind::Dpt => {
            let ddi = random.pick(&[like.word(DDI), like.word(DDI), 0, 255, 256, 65_535]);
            record.put_word(DDI, ddi);
        }
        Kind::Dvp => put(
            &mut record.bytes,
            SCALE,
            &random.pick(&SCALES).to_le_bytes(),
        ),
        Kind::Dvc => {}
    }
}

/// Asks for an ID that the pool has, or has an element's data judged.
fn ask_for_known(random: &mut Random, arguments: &mut [u8], records: &[Whole]) {
    let mut ask = |at: usize, bytes: &[u8]| put(arguments, 1 + at, bytes);
    let record = &records[random.below(records.len())];
    ask(ID_AT, &record.word(ID).to_le_bytes());
    let elements = records
        .iter()
        .filter(|it| it.kind == Kind::Det && it.entries() > 0);
    let elements: Vec<&Whole> = elements.collect();
    if elements.is_empty() {
        return;
    }
    let element = random.pick(&elements);
    let entry = element.behind_text() + 6 + 2 * random.below(element.entries());
    let id = element.word(entry);
    if let Some(data) = records.iter().find(|it| it.word(ID) == id) {
        ask(DDI_AT, &data.word(DDI).to_le_bytes());
    }
    ask(
        ELEMENT_AT,
        &element.word(element.behind_text()).to_le_bytes(),
    );
    ask(COMMAND_AT, &[random.below(16) as u8]);
    ask(VALUE_AT, &random.pick(&[i32::MIN, -1, 0, 1]).to_le_bytes());
    ask(
        WIDE_AT,
        &[random.pick(&[0, 0, 0, 0, 0, 0, 1, 1 << 2, 1 << 4])],
    );
}
