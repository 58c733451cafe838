//! Pools read and checked, their texts and labels.

use crate::c;
use crate::c::Record;
use crate::{Cause, NO_ID};
use core::error::Error;
use core::fmt;
use core::slice;

/// The five kinds of records.
#[derive(Clone, Copy, Debug, PartialEq, Eq, Hash)]
pub enum Kind {
    /// DVC.
    Device,
    /// DET.
    DeviceElement,
    /// DPD.
    ProcessData,
    /// DPT.
    Property,
    /// DVP.
    ValuePresentation,
}

impl Record {
    /// The kind of a record that was read; `None` for an entry that no call
    /// has written.
    pub fn kind(&self) -> Option<Kind> {
        match self.kind {
            1 => Some(Kind::Device),
            2 => Some(Kind::DeviceElement),
            3 => Some(Kind::ProcessData),
            4 => Some(Kind::Property),
            5 => Some(Kind::ValuePresentation),
            _ => None,
        }
    }

    /// A device element's parent ID as it stands in the pool, whatever it names
    /// and even if it is [`NO_ID`]; `None` for kinds without a parent.
    pub fn parent(&self) -> Option<u16> {
        (self.kind() == Some(Kind::DeviceElement)).then_some(self.parent)
    }
}

/// A breach of the rule table. Records count from 1; record 0 is the whole
/// pool.
#[repr(C)]
#[derive(Clone, Copy, Debug, Default, PartialEq, Eq, Hash)]
#[non_exhaustive]
pub struct Fault {
    pub record: u16,
    pub rule: u16,
    pub item: u16,
    /// ID of the record; [`NO_ID`] for the whole pool.
    pub id: u16,
    /// Parent ID of the record, as its table entry has it: [`NO_ID`] for kinds
    /// without a parent, and for the whole pool.
    pub parent: u16,
}

impl Fault {
    /// How many words a fault has.
    pub const WORDS: usize = 5;

    /// The fault buffer as C takes it.
    fn words(faults: &mut [Fault]) -> &mut [u16] {
        let length = Fault::WORDS * faults.len();
        // SAFETY: a fault is five words without padding, is aligned like a
        // word, and any words are a valid fault.
        unsafe { slice::from_raw_parts_mut(faults.as_mut_ptr().cast(), length) }
    }
}

/// Names the object first, then the rule.
impl fmt::Display for Fault {
    fn fmt(&self, f: &mut fmt::Formatter) -> fmt::Result {
        let Fault {
            record,
            rule,
            item,
            id,
            parent,
        } = *self;
        match (record, parent) {
            (0, _) => write!(f, "the whole pool")?,
            (_, NO_ID) => write!(f, "ID {id}, record {record}")?,
            _ => write!(f, "ID {id} under parent {parent}, record {record}")?,
        }
        write!(f, ", rule {rule}, item {item}")
    }
}

/// Why a pool is not read, and where.
#[derive(Clone, Copy, Debug, PartialEq, Eq)]
#[non_exhaustive]
pub struct Refusal {
    pub cause: Cause,
    /// Where the bad record or length byte is, or how many entries the table
    /// needs ([`Cause::ShortTable`]); `None` for other causes.
    pub place: Option<usize>,
}

impl Refusal {
    fn check(number: u32, value: usize) -> Result<usize, Refusal> {
        match Cause::check(number) {
            Ok(()) => Ok(value),
            Err(cause) => Err(Refusal {
                cause,
                place: place_of(cause, value),
            }),
        }
    }
}

impl fmt::Display for Refusal {
    fn fmt(&self, f: &mut fmt::Formatter) -> fmt::Result {
        write_refusal(f, self.cause, self.place)
    }
}

impl Error for Refusal {}

/// The place of a refusal, where its cause has one.
pub(crate) fn place_of(cause: Cause, value: usize) -> Option<usize> {
    let has_place = matches!(
        cause,
        Cause::NoMark | Cause::CutRecord | Cause::LongText | Cause::ShortTable
    );
    has_place.then_some(value)
}

pub(crate) fn write_refusal(
    f: &mut fmt::Formatter,
    cause: Cause,
    place: Option<usize>,
) -> fmt::Result {
    match place {
        None => write!(f, "{cause}"),
        Some(needed) if cause == Cause::ShortTable => write!(f, "{cause}, which are {needed}"),
        Some(place) => write!(f, "{cause}, at {place}"),
    }
}

/// The labels of a device.
#[derive(Clone, Copy, Debug, PartialEq, Eq)]
pub struct Labels {
    pub structure: [u8; 7],
    pub localization: [u8; 7],
    extended: [u8; 32],
    extended_length: u16,
}

impl Labels {
    pub fn extended(&self) -> &[u8] {
        &self.extended[..self.extended_length.into()]
    }
}

/// Reads a pool into the start of the table and gives the count of its
/// records; later entries are unchanged. A refusal leaves the table as it was.
pub fn read(pool: &[u8], table: &mut [Record]) -> Result<usize, Refusal> {
    let mut value = 0;
    let number = c::read(pool, table, &mut value);
    Refusal::check(number, value)
}

/// Checks a pool and gives the full count of its faults, 0 if it is accepted.
/// The buffer gets the first ones in order, as many as fit; the table is
/// filled as by [`read`]. A refusal leaves both as they were.
pub fn check(pool: &[u8], table: &mut [Record], faults: &mut [Fault]) -> Result<usize, Refusal> {
    let mut value = 0;
    let number = c::check(pool, table, Fault::words(faults), &mut value);
    Refusal::check(number, value)
}

/// Whether a text keeps rule 4: well-formed UTF-8 of at most 32 characters that
/// does not begin with a byte order mark.
pub fn text_is_sound(text: &[u8]) -> bool {
    c::text_is_sound(text)
}

/// The designator or unit text of the first record with this ID, as a part of
/// the pool. The pool must be accepted; the table is filled whenever it is
/// read.
pub fn text<'pool>(pool: &'pool [u8], table: &mut [Record], id: u16) -> Result<&'pool [u8], Cause> {
    let (mut from, mut to) = (0, 0);
    let number = c::text(pool, table, id.into(), &mut from, &mut to);
    Cause::check(number).map(|()| &pool[from..to])
}

/// The labels of the device. The pool must be accepted; the table is filled
/// whenever it is read.
pub fn labels(pool: &[u8], table: &mut [Record]) -> Result<Labels, Cause> {
    let mut labels = c::DeviceLabels::default();
    c::labels(&mut labels, pool, table);
    Cause::check(labels.number).map(|()| Labels {
        structure: labels.structure,
        localization: labels.localization,
        extended: labels.extended,
        extended_length: labels.extended_length,
    })
}

#[cfg(test)]
mod tests {
    use super::*;
    use crate::pools::{p, q};
    use std::string::ToString;

    const UNTOUCHED: Record = Record {
        start: 9_001,
        length: 9_002,
        kind: 9_003,
        id: 9_004,
        parent: 9_005,
    };
    const NO_FAULT: Fault = Fault {
        record: 9_006,
        rule: 9_007,
        item: 9_008,
        id: 9_009,
        parent: 9_010,
    };

    fn fault(record: u16, rule: u16, item: u16, id: u16, parent: u16) -> Fault {
        Fault {
            record,
            rule,
            item,
            id,
            parent,
        }
    }

    #[test]
    fn a_pool_is_read_into_the_table() {
        let mut table = [UNTOUCHED; 5];
        assert_eq!(read(&q(), &mut table), Ok(4));
        let rows = table.map(|it| (it.start, it.length, it.kind(), it.id, it.parent()));
        assert_eq!(
            rows[..4],
            [
                (0, 31, Some(Kind::Device), 0, None),
                (31, 13, Some(Kind::DeviceElement), 1, Some(0)),
                (44, 15, Some(Kind::DeviceElement), 2, Some(1)),
                (59, 12, Some(Kind::ProcessData), 3, None),
            ]
        );
        assert_eq!(table[4], UNTOUCHED);
    }

    #[test]
    fn a_parent_is_given_as_it_stands() {
        // A parent that names nothing, and a record of each other kind.
        let mut pool = crate::pools::walked();
        pool[44..46].fill(0xFF);
        let mut table = [UNTOUCHED; 6];
        assert_eq!(read(&pool, &mut table), Ok(5));
        let parents = table.map(|it| (it.parent, it.parent()));
        let none = (NO_ID, None);
        let expected = [none, (NO_ID, Some(NO_ID)), none, none, none];
        assert_eq!(parents[..5], expected);
        // No call has written the last entry, and its kind is none.
        assert_eq!(parents[5], (9_005, None));
    }

    #[test]
    fn a_refusal_has_its_place_and_leaves_the_table() {
        let mut table = [UNTOUCHED; 4];
        let mut refusal = |pool: &[u8], entries| {
            let refusal = read(pool, &mut table[..entries]).unwrap_err();
            (refusal.cause, refusal.place, refusal.to_string())
        };
        let mut is = |pool: &[u8], entries, cause, place, said: &str| {
            let expected = (cause, place, said.to_string());
            assert_eq!(refusal(pool, entries), expected);
        };
        is(&[], 4, Cause::EmptyPool, None, "1: the pool has no byte");
        let cut = "4: the pool ends inside this record, at 59";
        is(&q()[..70], 4, Cause::CutRecord, Some(59), cut);
        let cut = "4: the pool ends inside this record, at 0";
        is(b"DVC", 4, Cause::CutRecord, Some(0), cut);
        let short = "7: the working table has fewer entries than the pool has records, which are 4";
        is(&q(), 3, Cause::ShortTable, Some(4), short);
        is(&q(), 0, Cause::ShortTable, Some(4), short);
        assert_eq!(table, [UNTOUCHED; 4]);
    }

    #[test]
    fn faults_are_listed_as_far_as_they_fit() {
        let mut faults = [NO_FAULT; 2];
        let mut table = [UNTOUCHED; 4];
        assert_eq!(check(&q(), &mut table, &mut faults), Ok(0));
        assert_eq!(faults, [NO_FAULT; 2]);
        assert_eq!(check(&q()[..59], &mut table, &mut faults), Ok(1));
        assert_eq!(faults, [fault(3, 6, 2, 2, 1), NO_FAULT]);
        // An element that is its own parent.
        let mut own = p();
        own[40] = 1;
        assert_eq!(check(&own, &mut table, &mut []), Ok(1));
    }

    #[test]
    fn a_fault_names_its_object() {
        // Without the device, with a text that is not UTF-8 and with an unknown
        // type of element.
        let mut pool = crate::pools::walked().split_off(31);
        pool[5] = 0;
        pool[32] = 0xFF;
        let mut faults = [NO_FAULT; 6];
        assert_eq!(check(&pool, &mut [UNTOUCHED; 4], &mut faults), Ok(5));
        let expected = [
            fault(0, 10, 1, NO_ID, NO_ID),
            fault(0, 11, 1, NO_ID, NO_ID),
            fault(1, 5, 1, 0x0201, 0),
            fault(1, 6, 1, 0x0201, 0),
            fault(2, 4, 1, 0x0203, NO_ID),
            NO_FAULT,
        ];
        assert_eq!(faults, expected);
        let said = "the whole pool, rule 10, item 1";
        assert_eq!(faults[0].to_string(), said);
        let said = "ID 513 under parent 0, record 1, rule 5, item 1";
        assert_eq!(faults[2].to_string(), said);
        let said = "ID 515, record 2, rule 4, item 1";
        assert_eq!(faults[4].to_string(), said);
    }

    #[test]
    fn a_text_is_a_part_of_the_pool() {
        let pool = crate::pools::named();
        let mut table = [UNTOUCHED; 3];
        let designator = text(&pool, &mut table, 0).unwrap();
        assert_eq!(designator, b"Spritze");
        assert_eq!(designator.as_ptr(), &pool[6]);
        assert_eq!(text(&pool, &mut table, 1), Ok(&b""[..]));
        assert_eq!(text(&pool, &mut table, 9), Err(Cause::NoSuchId));
        assert_eq!(text(&q()[..59], &mut table, 0), Err(Cause::Faulty));
        assert_eq!(text(&[], &mut table, 0), Err(Cause::EmptyPool));
    }

    #[test]
    fn labels_are_those_of_the_device() {
        let pool = crate::pools::named();
        let given = labels(&pool, &mut [UNTOUCHED; 2]).unwrap();
        assert_eq!(given.structure, [1, 2, 3, 4, 5, 6, 7]);
        assert_eq!(given.localization, [0x65, 0x6E, 1, 2, 3, 4, 0xFF]);
        assert_eq!(given.extended(), [8, 9, 10]);
        let short = labels(&pool, &mut [UNTOUCHED; 1]);
        assert_eq!(short, Err(Cause::ShortTable));
    }

    #[test]
    fn a_text_is_examined() {
        assert!(text_is_sound(b""));
        assert!(text_is_sound("Düngerstreuer".as_bytes()));
        assert!(!text_is_sound(b"\xEF\xBB\xBF"));
        assert!(!text_is_sound(&[b'a'; 33]));
    }

    #[test]
    fn words_are_lent_as_a_table() {
        let mut words = [7; 14];
        assert_eq!(read(&p(), Record::table(&mut words)), Ok(2));
        let expected = [0, 31, 1, 0, NO_ID, 31, 13, 2, 1, 0, 7, 7, 7, 7];
        assert_eq!(words, expected);
        assert!(Record::table(&mut words[..4]).is_empty());
    }

    #[test]
    fn faults_are_lent_as_words() {
        let mut faults = [fault(1, 2, 3, 4, 5), fault(6, 7, 8, 9, 10)];
        let words = Fault::words(&mut faults);
        assert_eq!(words, [1, 2, 3, 4, 5, 6, 7, 8, 9, 10]);
        words[9] = 11;
        assert_eq!(faults[1], fault(6, 7, 8, 9, 11));
        assert!(Fault::words(&mut []).is_empty());
    }
}
