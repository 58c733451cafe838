//! The fields of a record, taken from the pool's bytes at its start. Reading
//! has found the record complete, so every field is there.

use crate::pool::Record;
use crate::texts::Text;

impl Record {
    /// The pool from the start of this record.
    #[inline]
    pub(crate) fn bytes(self, pool: &[u8]) -> &[u8] {
        &pool[usize::from(self.start)..]
    }
}

/// Device.
pub struct Device<'a> {
    pub designator: Text<'a>,
    pub version: Text<'a>,
    pub serial: Text<'a>,
    pub structure: [u8; 7],
    pub localization: [u8; 7],
    pub extended: &'a [u8],
}

impl<'a> Device<'a> {
    pub fn of(record: &'a [u8]) -> Self {
        let (designator, rest) = Text::split(&record[5..]);
        let (version, rest) = Text::split(rest);
        let name_end = 8;
        let (serial, rest) = Text::split(&rest[name_end..]);
        let (structure, rest) = split_label(rest);
        let (localization, rest) = split_label(rest);
        let (extended, _) = Text::split(rest);
        Device {
            designator,
            version,
            serial,
            structure,
            localization,
            extended: extended.bytes(),
        }
    }
}

/// Device element.
pub struct Element<'a> {
    pub element_type: u8,
    pub designator: Text<'a>,
    pub number: u16,
    pub parent: u16,
    entries: &'a [u8],
}

impl<'a> Element<'a> {
    #[inline]
    pub fn of(record: &'a [u8]) -> Self {
        let (designator, rest) = Text::split(&record[6..]);
        Element {
            element_type: record[5],
            designator,
            number: u16_at(rest, 0),
            parent: u16_at(rest, 2),
            entries: &rest[6..6 + 2 * usize::from(u16_at(rest, 4))],
        }
    }

    /// Only the type.
    #[inline]
    pub fn type_of(record: &[u8]) -> u8 {
        record[5]
    }

    /// The IDs of the list.
    #[inline]
    pub fn entries(&self) -> impl Iterator<Item = u16> + 'a {
        self.entries.chunks_exact(2).map(|entry| u16_at(entry, 0))
    }
}

/// Process data.
pub struct ProcessData<'a> {
    pub properties: u8,
    pub triggers: u8,
    pub designator: Text<'a>,
    pub presentation: u16,
}

impl<'a> ProcessData<'a> {
    #[inline]
    pub fn of(record: &'a [u8]) -> Self {
        let (designator, rest) = Text::split(&record[9..]);
        ProcessData {
            properties: record[7],
            triggers: record[8],
            designator,
            presentation: u16_at(rest, 0),
        }
    }
}

/// Property.
pub struct Property<'a> {
    pub designator: Text<'a>,
    pub presentation: u16,
}

impl<'a> Property<'a> {
    #[inline]
    pub fn of(record: &'a [u8]) -> Self {
        let (designator, rest) = Text::split(&record[11..]);
        Property {
            designator,
            presentation: u16_at(rest, 0),
        }
    }
}

/// Value presentation.
pub struct Presentation<'a> {
    pub scale_bits: u32,
    pub decimals: u8,
    pub unit: Text<'a>,
}

impl<'a> Presentation<'a> {
    #[inline]
    pub fn of(record: &'a [u8]) -> Self {
        let (unit, _) = Text::split(&record[14..]);
        Presentation {
            scale_bits: u32::from_le_bytes([record[9], record[10], record[11], record[12]]),
            decimals: record[13],
            unit,
        }
    }
}

/// The DDI of a process data or property record.
#[inline]
pub fn ddi(record: &[u8]) -> u16 {
    u16_at(record, 5)
}

#[inline]
fn u16_at(bytes: &[u8], at: usize) -> u16 {
    u16::from_le_bytes([bytes[at], bytes[at + 1]])
}

fn split_label(bytes: &[u8]) -> ([u8; 7], &[u8]) {
    let (label, rest) = bytes
        .split_first_chunk()
        .expect("reading found both labels whole");
    (*label, rest)
}
