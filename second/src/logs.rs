//! Records of a time log.

use crate::ordinals::{entries_fit, ordinals_fit, ENTRY_BYTES};
use std::mem;

const CUT_RECORD: u8 = 40;
const BAD_TIME: u8 = 41;
const BAD_NORTH: u8 = 42;
const BAD_EAST: u8 = 43;
const BAD_STATUS: u8 = 44;
const BAD_ORDINAL: u8 = 45;
const NO_ROOM: u8 = 46;
const BAD_LAYOUT: u8 = 47;
const BAD_COUNT: u8 = 48;

const MAX_TIME: u32 = 86_399_999;
const MAX_NORTH: i32 = 900_000_000;
const MAX_EAST: i32 = 1_800_000_000;

// The marks of a layout.
const NORTH: u16 = 1;
const EAST: u16 = 1 << 1;
const UP: u16 = 1 << 2;
const STATUS: u16 = 1 << 3;
const PDOP: u16 = 1 << 4;
const HDOP: u16 = 1 << 5;
const SATELLITES: u16 = 1 << 6;
const GPS_TIME: u16 = 1 << 7;
const GPS_DATE: u16 = 1 << 8;
const LAYOUTS: usize = 1 << 9;

/// The fields of a record. Those that the layout does not mark are 0 when
/// read, and ignored when written.
#[derive(Clone, Copy, Debug, Default, PartialEq, Eq)]
pub struct LogFields {
    /// Milliseconds since midnight.
    pub time: u32,
    /// The first day of 1980 is day 0.
    pub days: u16,
    pub north: i32,
    pub east: i32,
    pub up: i32,
    pub status: u8,
    pub pdop: u16,
    pub hdop: u16,
    pub satellites: u8,
    pub gps_time: u32,
    pub gps_date: u16,
}

/// A record that was read.
#[derive(Clone, Copy, Debug, Default, PartialEq, Eq)]
pub struct LogRecord {
    /// In bytes.
    pub length: usize,
    /// How many values it has.
    pub count: usize,
    pub fields: LogFields,
}

/// Why a log was not read, and where the record starts that is at fault; 0 if
/// the layout is.
#[derive(Clone, Copy, Debug, Default, PartialEq, Eq)]
pub struct LogRefusal {
    pub number: u8,
    pub start: usize,
}

/// How many fields a layout marks, or the number of the refusal.
pub fn optional_fields(layout: u32) -> Result<u32, u8> {
    Shape::of(layout).map(|shape| shape.layout.count_ones())
}

/// Reads the record that `bytes` start with and enters its values at the start
/// of both lists, or gives the number of the refusal. `logged` is the number of
/// log values in the header.
pub fn read_record(
    bytes: &[u8],
    layout: u32,
    logged: usize,
    ordinals: &mut [u8],
    values: &mut [i32],
) -> Result<LogRecord, u8> {
    let shape = Shape::of(layout)?;
    let count = shape.judge(bytes, logged)?;
    let (Some(ordinals), Some(values)) = (ordinals.get_mut(..count), values.get_mut(..count))
    else {
        return Err(NO_ROOM);
    };
    let length = shape.length(count);
    let (head, entries) = bytes[..length].split_at(shape.head);
    let (entries, _) = entries.as_chunks::<ENTRY_BYTES>();
    for ((entry, ordinal), value) in entries.iter().zip(ordinals).zip(values) {
        let [first, others @ ..] = *entry;
        *ordinal = first;
        *value = i32::from_le_bytes(others);
    }
    Ok(LogRecord {
        length,
        count,
        fields: shape.reader(head).fields(),
    })
}

/// Writes a record with the first `count` values of both lists to the start of
/// `to` and gives its length, or the number of the refusal.
pub fn write_record(
    to: &mut [u8],
    layout: u32,
    fields: &LogFields,
    logged: usize,
    ordinals: &[u8],
    values: &[i32],
    count: usize,
) -> Result<usize, u8> {
    let shape = Shape::of(layout)?;
    let (Some(ordinals), Some(values), Ok(count_byte)) =
        (ordinals.get(..count), values.get(..count), count.try_into())
    else {
        return Err(BAD_COUNT);
    };
    shape.limited(fields).judge()?;
    if !ordinals_fit(ordinals, logged) {
        return Err(BAD_ORDINAL);
    }
    let length = shape.length(count);
    let to = to.get_mut(..length).ok_or(NO_ROOM)?;
    let (head, entries) = to.split_at_mut(shape.head);
    shape.writer(head).write(fields, count_byte);
    let (entries, _) = entries.as_chunks_mut::<ENTRY_BYTES>();
    for ((entry, ordinal), value) in entries.iter_mut().zip(ordinals).zip(values) {
        let [second, third, fourth, fifth] = value.to_le_bytes();
        *entry = [*ordinal, second, third, fourth, fifth];
    }
    Ok(length)
}

/// Reads a log and gives the number of its records.
pub fn read_log(bytes: &[u8], layout: u32, logged: usize) -> Result<usize, LogRefusal> {
    let mut start = 0;
    let refusal = |number, start| LogRefusal { number, start };
    let shape = Shape::of(layout).map_err(|number| refusal(number, start))?;
    let mut records = 0;
    while start < bytes.len() {
        let count = shape
            .judge(&bytes[start..], logged)
            .map_err(|number| refusal(number, start))?;
        start += shape.length(count);
        records += 1;
    }
    Ok(records)
}

/// A layout that is not refused, and what follows from it for every record.
#[derive(Clone, Copy)]
struct Shape {
    layout: u16,
    /// Bytes of all fields and the count, which comes last.
    head: usize,
}

impl Shape {
    #[inline]
    fn of(layout: u32) -> Result<Self, u8> {
        let head = *HEADS.get(layout as usize).ok_or(BAD_LAYOUT)?;
        Ok(Shape {
            layout: layout as u16,
            head: usize::from(head),
        })
    }

    #[inline]
    fn marks(self, field: u16) -> bool {
        self.layout & field != 0
    }

    /// Bytes of a record with `count` values.
    #[inline]
    fn length(self, count: usize) -> usize {
        self.head + count * ENTRY_BYTES
    }

    /// Judges the record that `bytes` start with and gives the number of its
    /// values. Reading a log spends most of its time here.
    #[inline(always)]
    fn judge(self, bytes: &[u8], logged: usize) -> Result<usize, u8> {
        let (head, rest) = bytes.split_at_checked(self.head).ok_or(CUT_RECORD)?;
        let count = usize::from(head[self.head - 1]);
        if rest.len() < count * ENTRY_BYTES {
            return Err(CUT_RECORD);
        }
        self.reader(head).limited().judge()?;
        if !entries_fit(rest, count, logged) {
            return Err(BAD_ORDINAL);
        }
        Ok(count)
    }

    #[inline]
    fn limited(self, fields: &LogFields) -> Limited {
        Limited {
            time: fields.time,
            north: if self.marks(NORTH) { fields.north } else { 0 },
            east: if self.marks(EAST) { fields.east } else { 0 },
            status: if self.marks(STATUS) { fields.status } else { 0 },
        }
    }

    #[inline]
    fn reader(self, head: &[u8]) -> Reader<'_> {
        Reader {
            shape: self,
            rest: head,
        }
    }

    #[inline]
    fn writer(self, head: &mut [u8]) -> Writer<'_> {
        Writer {
            shape: self,
            rest: head,
        }
    }
}

/// The fields that have limits, with 0, which is within them, for those that
/// are not marked.
struct Limited {
    time: u32,
    north: i32,
    east: i32,
    status: u8,
}

impl Limited {
    #[inline]
    fn judge(self) -> Result<(), u8> {
        if self.time > MAX_TIME {
            Err(BAD_TIME)
        } else if !(-MAX_NORTH..=MAX_NORTH).contains(&self.north) {
            Err(BAD_NORTH)
        } else if !(-MAX_EAST..=MAX_EAST).contains(&self.east) {
            Err(BAD_EAST)
        } else if !matches!(self.status, 0..=8 | 14 | 15) {
            Err(BAD_STATUS)
        } else {
            Ok(())
        }
    }
}

/// Takes the fields of a whole head one by one.
struct Reader<'a> {
    shape: Shape,
    rest: &'a [u8],
}

impl Reader<'_> {
    #[inline(always)]
    fn next<const N: usize>(&mut self) -> [u8; N] {
        let (field, rest) = self.rest.split_first_chunk().expect(WHOLE_HEAD);
        self.rest = rest;
        *field
    }

    #[inline(always)]
    fn next_if<const N: usize>(&mut self, field: u16) -> [u8; N] {
        if self.shape.marks(field) {
            self.next()
        } else {
            [0; N]
        }
    }

    #[inline(always)]
    fn limited(mut self) -> Limited {
        let time = u32::from_le_bytes(self.next());
        let _days: [u8; 2] = self.next();
        let north = i32::from_le_bytes(self.next_if(NORTH));
        let east = i32::from_le_bytes(self.next_if(EAST));
        let _up: [u8; 4] = self.next_if(UP);
        let [status] = self.next_if(STATUS);
        Limited {
            time,
            north,
            east,
            status,
        }
    }

    #[inline(always)]
    fn fields(mut self) -> LogFields {
        LogFields {
            time: u32::from_le_bytes(self.next()),
            days: u16::from_le_bytes(self.next()),
            north: i32::from_le_bytes(self.next_if(NORTH)),
            east: i32::from_le_bytes(self.next_if(EAST)),
            up: i32::from_le_bytes(self.next_if(UP)),
            status: u8::from_le_bytes(self.next_if(STATUS)),
            pdop: u16::from_le_bytes(self.next_if(PDOP)),
            hdop: u16::from_le_bytes(self.next_if(HDOP)),
            satellites: u8::from_le_bytes(self.next_if(SATELLITES)),
            gps_time: u32::from_le_bytes(self.next_if(GPS_TIME)),
            gps_date: u16::from_le_bytes(self.next_if(GPS_DATE)),
        }
    }
}

/// Fills a head field by field.
struct Writer<'a> {
    shape: Shape,
    rest: &'a mut [u8],
}

impl Writer<'_> {
    #[inline(always)]
    fn next<const N: usize>(&mut self, bytes: [u8; N]) {
        let rest = mem::take(&mut self.rest);
        let (field, rest) = rest.split_first_chunk_mut().expect(WHOLE_HEAD);
        *field = bytes;
        self.rest = rest;
    }

    #[inline(always)]
    fn next_if<const N: usize>(&mut self, field: u16, bytes: [u8; N]) {
        if self.shape.marks(field) {
            self.next(bytes);
        }
    }

    #[inline(always)]
    fn write(mut self, fields: &LogFields, count: u8) {
        self.next(fields.time.to_le_bytes());
        self.next(fields.days.to_le_bytes());
        self.next_if(NORTH, fields.north.to_le_bytes());
        self.next_if(EAST, fields.east.to_le_bytes());
        self.next_if(UP, fields.up.to_le_bytes());
        self.next_if(STATUS, fields.status.to_le_bytes());
        self.next_if(PDOP, fields.pdop.to_le_bytes());
        self.next_if(HDOP, fields.hdop.to_le_bytes());
        self.next_if(SATELLITES, fields.satellites.to_le_bytes());
        self.next_if(GPS_TIME, fields.gps_time.to_le_bytes());
        self.next_if(GPS_DATE, fields.gps_date.to_le_bytes());
        self.next([count]);
    }
}

const WHOLE_HEAD: &str = "the head has room for every marked field";

/// For each layout, the bytes of a head.
static HEADS: [u8; LAYOUTS] = heads();

const fn heads() -> [u8; LAYOUTS] {
    let always = 4 + 2 + 1;
    let mut heads = [always; LAYOUTS];
    let mut layout = 0;
    while layout < LAYOUTS {
        let marks = layout as u16;
        let fours = (marks & (NORTH | EAST | UP | GPS_TIME)).count_ones();
        let twos = (marks & (PDOP | HDOP | GPS_DATE)).count_ones();
        let ones = (marks & (STATUS | SATELLITES)).count_ones();
        heads[layout] += (4 * fours + 2 * twos + ones) as u8;
        layout += 1;
    }
    heads
}
