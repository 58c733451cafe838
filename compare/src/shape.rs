//! Writes records and pools of a wanted shape. All fields that reading does
//! not judge are filled at random.

use crate::objects::NO_REFERENCE;
use crate::random::Random;
use second::{Kind, Record};

pub const KINDS: [Kind; 5] = [Kind::Dvc, Kind::Det, Kind::Dpd, Kind::Dpt, Kind::Dvp];

pub const TEXT_LIMIT: usize = 128;
pub const LABEL_LIMIT: usize = 32;

/// The shortest record is a DPD without a designator.
pub const SHORTEST_RECORD: usize = 12;

/// A record's kind and the lengths it states. They may be over their limits:
/// a text has up to 255 bytes here, a list up to 65,535 entries.
#[derive(Clone, Copy)]
pub struct Shape {
    pub kind: Kind,
    /// A device has four texts, the others only the first.
    pub texts: [usize; 4],
    /// Entries of a device element.
    pub entries: usize,
}

impl Shape {
    /// The shortest record of its kind.
    pub fn shortest(kind: Kind) -> Self {
        Shape {
            kind,
            texts: [0; 4],
            entries: 0,
        }
    }

    /// A sound record with texts and list up to the given lengths.
    pub fn sound(random: &mut Random, longest_text: usize, most_entries: usize) -> Self {
        let longest_label = longest_text.min(LABEL_LIMIT);
        let mut shape = Shape::shortest(random.pick(&KINDS));
        for index in 0..shape.text_count() {
            let longest = shape.limit(index).min(longest_text);
            shape.texts[index] = random.between(0, longest);
        }
        if random.one_in(8) {
            shape.texts[0] = longest_text;
            shape.texts[3] = longest_label;
        }
        shape.entries = random.between(0, most_entries);
        shape
    }

    pub fn text_count(&self) -> usize {
        match self.kind {
            Kind::Dvc => 4,
            _ => 1,
        }
    }

    /// The limit of the text at `index`.
    pub fn limit(&self, index: usize) -> usize {
        match index {
            3 => LABEL_LIMIT,
            _ => TEXT_LIMIT,
        }
    }

    /// Where in a device element's record its entry count is.
    pub fn entry_count_at(&self) -> usize {
        11 + self.texts[0]
    }

    pub fn bytes(&self, random: &mut Random) -> Vec<u8> {
        let mut record = Writer {
            bytes: self.kind.mark().into(),
            random,
        };
        record.free(2);
        match self.kind {
            Kind::Dvc => self.write_device(&mut record),
            Kind::Det => self.write_element(&mut record),
            Kind::Dpd => self.write_data(&mut record, 4),
            Kind::Dpt => self.write_data(&mut record, 6),
            Kind::Dvp => {
                record.free(9);
                record.text(self.texts[0]);
            }
        }
        record.bytes
    }

    fn write_device(&self, record: &mut Writer) {
        record.text(self.texts[0]);
        record.text(self.texts[1]);
        record.free(8);
        record.text(self.texts[2]);
        record.free(14);
        record.text(self.texts[3]);
    }

    fn write_element(&self, record: &mut Writer) {
        record.free(1);
        record.text(self.texts[0]);
        record.free(4);
        record.bytes.extend((self.entries as u16).to_le_bytes());
        record.free(2 * self.entries);
    }

    fn write_data(&self, record: &mut Writer, before_text: usize) {
        record.free(before_text);
        record.text(self.texts[0]);
        record.free(2);
    }
}

struct Writer<'a> {
    bytes: Vec<u8>,
    random: &'a mut Random,
}

impl Writer<'_> {
    fn text(&mut self, length: usize) {
        self.bytes.push(length as u8);
        self.free(length);
    }

    /// Half the bytes are letters of marks, so that a reader that looks for
    /// marks inside a record finds some.
    fn free(&mut self, length: usize) {
        for _ in 0..length {
            let byte = if self.random.one_in(2) {
                self.random.pick(b"DVCETP")
            } else {
                self.random.byte()
            };
            self.bytes.push(byte);
        }
    }
}

/// A pool with the records that it was assembled from.
#[derive(Default)]
pub struct Pool {
    pub bytes: Vec<u8>,
    pub records: Vec<Record>,
}

impl Pool {
    pub fn push(&mut self, shape: &Shape, random: &mut Random) {
        let bytes = shape.bytes(random);
        let number_at = |place: usize| u16::from_le_bytes([bytes[place], bytes[place + 1]]);
        self.records.push(Record {
            start: self.bytes.len() as u16,
            length: bytes.len() as u16,
            kind: shape.kind,
            id: number_at(3),
            parent: match shape.kind {
                Kind::Det => number_at(9 + shape.texts[0]),
                _ => NO_REFERENCE,
            },
        });
        self.bytes.extend(bytes);
    }

    /// A sound pool of exactly `length` bytes, at least the shortest record's.
    pub fn of_length(random: &mut Random, length: usize, longest_text: usize) -> Self {
        let mut pool = Pool::default();
        // The longest record drawn here has 447 bytes.
        while length - pool.bytes.len() > 500 {
            pool.push(&Shape::sound(random, longest_text, 20), random);
        }
        let last = length - pool.bytes.len();
        pool.push(&shape_of_length(last), random);
        pool
    }
}

/// A record of exactly `length` bytes, at least the shortest record's.
fn shape_of_length(length: usize) -> Shape {
    if length == SHORTEST_RECORD {
        return Shape::shortest(Kind::Dpd);
    }
    let free = length - 13;
    let mut shape = Shape::shortest(Kind::Det);
    shape.texts[0] = free % 2;
    shape.entries = free / 2;
    shape
}
