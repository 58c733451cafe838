//! The structs that cross the C boundary, field by field as C has them.

use core::slice;

/// A record of a pool, as the working table has it.
#[repr(C)]
#[derive(Clone, Copy, Debug, Default, PartialEq, Eq)]
#[non_exhaustive]
pub struct Record {
    pub start: u16,
    pub length: u16,
    /// 1 DVC, 2 DET, 3 DPD, 4 DPT, 5 DVP.
    pub kind: u16,
    pub id: u16,
    /// A device element's parent ID as it stands in the pool, whatever it
    /// names; 65,535 for other kinds.
    pub parent: u16,
}

impl Record {
    /// How many words a record has.
    pub const WORDS: usize = 5;

    /// Lends words as a table. Words after the last whole record are not lent.
    #[inline]
    pub fn table(words: &mut [u16]) -> &mut [Record] {
        let length = words.len() / Record::WORDS;
        // SAFETY: a record is five words without padding, is aligned like a
        // word, and any words are a valid record; `length` whole records are
        // no longer than the words.
        unsafe { slice::from_raw_parts_mut(words.as_mut_ptr().cast(), length) }
    }
}

/// The labels of a device, or a refusal's number with zeros.
#[repr(C)]
#[derive(Clone, Copy, Debug, Default, PartialEq, Eq)]
pub struct DeviceLabels {
    pub number: u32,
    pub structure: [u8; 7],
    pub localization: [u8; 7],
    pub extended: [u8; 32],
    /// How many bytes of the extended label are used; the others are 0.
    pub extended_length: u16,
}

/// A part of the pool: from the first place up to the second, exclusive.
#[repr(C)]
#[derive(Clone, Copy, Debug, Default, PartialEq, Eq)]
pub struct Span {
    pub from: usize,
    pub to: usize,
}

/// The fields of a device (DVC).
#[repr(C)]
#[derive(Clone, Copy, Debug, Default, PartialEq, Eq)]
pub struct Device {
    pub designator: Span,
    /// Software version.
    pub version: Span,
    /// NAME of the client, its first byte lowest.
    pub name: u64,
    /// Serial number.
    pub serial: Span,
    pub structure: Span,
    pub localization: Span,
    /// Extended structure label.
    pub extended: Span,
}

/// The fields of a device element (DET).
#[repr(C)]
#[derive(Clone, Copy, Debug, Default, PartialEq, Eq)]
pub struct Element {
    /// C's `type`.
    pub element_type: u8,
    pub designator: Span,
    pub number: u16,
    /// ID of the device or device element that it belongs to.
    pub parent: u16,
    /// How many entries its list has.
    pub entries: u16,
}

/// The fields of a device process data (DPD).
#[repr(C)]
#[derive(Clone, Copy, Debug, Default, PartialEq, Eq)]
pub struct ProcessData {
    pub ddi: u16,
    /// Bit 0 default set, 1 settable, 2 control source.
    pub properties: u8,
    /// Bit 0 time, 1 distance, 2 threshold, 3 on change, 4 total.
    pub triggers: u8,
    pub designator: Span,
    /// ID of its value presentation, or 65,535.
    pub presentation: u16,
}

/// The fields of a device property (DPT).
#[repr(C)]
#[derive(Clone, Copy, Debug, Default, PartialEq, Eq)]
pub struct Property {
    pub ddi: u16,
    pub value: i32,
    pub designator: Span,
    /// ID of its value presentation, or 65,535.
    pub presentation: u16,
}

/// The fields of a device value presentation (DVP).
#[repr(C)]
#[derive(Clone, Copy, Debug, Default, PartialEq, Eq)]
pub struct Presentation {
    pub offset: i32,
    /// The bits of an `f32`.
    pub scale: u32,
    pub decimals: u8,
    /// Unit text.
    pub unit: Span,
}

/// A client's session. The fields may hold any numbers; a call refuses a value
/// that no sequence of calls leads to.
#[repr(C)]
#[derive(Clone, Copy, Debug, Default, PartialEq, Eq)]
pub struct Session {
    pub announced: u32,
    pub received: u32,
    pub kept: u32,
    /// 0 for none, 1 for offered.
    pub stage: u16,
    /// 0 or 1.
    pub active: u16,
}

/// The session after a call, and the call's answer. A place that the answer does
/// not have is 0, and so are all five numbers of a fault that it does not have.
#[repr(C)]
#[derive(Clone, Copy, Debug, Default, PartialEq, Eq)]
#[non_exhaustive]
pub struct Step {
    pub session: Session,
    pub place: usize,
    pub number: u32,
    pub record: u16,
    pub rule: u16,
    pub item: u16,
    /// ID of the fault's record.
    pub id: u16,
    /// Parent ID of the fault's record.
    pub parent: u16,
}

/// The fields of a message. Those that it does not have are 0, as are all
/// fields after a refusal.
#[repr(C)]
#[derive(Clone, Copy, Debug, Default, PartialEq, Eq)]
pub struct MessageFields {
    pub number: u32,
    pub value: i32,
    pub element: u16,
    pub ddi: u16,
    pub command: u8,
    pub errors: u8,
    /// 0 to 15.
    pub answered: u8,
}

/// The fields of a log record. Those that the layout does not mark are 0 when
/// read, and ignored when written.
#[repr(C)]
#[derive(Clone, Copy, Debug, Default, PartialEq, Eq)]
pub struct LogFields {
    /// Time of day in milliseconds.
    pub time: u32,
    /// Days since 1980-01-01.
    pub days: u16,
    /// 1e-7 degrees, WGS-84.
    pub north: i32,
    /// 1e-7 degrees, WGS-84.
    pub east: i32,
    /// Millimetres above the ellipsoid of WGS-84.
    pub up: i32,
    /// Status of the position; 15 means that it is missing.
    pub status: u8,
    /// Tenths.
    pub pdop: u16,
    /// Tenths.
    pub hdop: u16,
    /// How many satellites are used.
    pub satellites: u8,
    /// UTC, milliseconds since midnight.
    pub gps_time: u32,
    /// UTC, days since 1980-01-01.
    pub gps_date: u16,
}

/// How many optional fields a layout marks, or a refusal's number with 0.
#[repr(C)]
#[derive(Clone, Copy, Debug, Default, PartialEq, Eq)]
pub struct LogMarks {
    pub number: u32,
    pub count: u32,
}

/// A log record that was read, or a refusal's number with zeros.
#[repr(C)]
#[derive(Clone, Copy, Debug, Default, PartialEq, Eq)]
pub struct LogRecord {
    pub number: u32,
    /// Length of the record in bytes.
    pub length: usize,
    /// How many ordinals and values the record has.
    pub count: usize,
    pub fields: LogFields,
}

/// The length of a log record that was written, or a refusal's number with 0.
#[repr(C)]
#[derive(Clone, Copy, Debug, Default, PartialEq, Eq)]
pub struct LogWritten {
    pub number: u32,
    pub length: usize,
}

/// How many records a log has, or a refusal's number with the start of the
/// record at fault.
#[repr(C)]
#[derive(Clone, Copy, Debug, Default, PartialEq, Eq)]
pub struct LogOutcome {
    pub number: u32,
    pub count: usize,
    pub start: usize,
}
