//! The time log: reads and writes records, and reads whole logs.

use crate::c::{self, LogFields};
use crate::Cause;
use core::error::Error;
use core::fmt;

/// The optional fields that a layout marks.
pub mod layout {
    pub const NORTH: u16 = 1;
    pub const EAST: u16 = 1 << 1;
    pub const UP: u16 = 1 << 2;
    pub const STATUS: u16 = 1 << 3;
    pub const PDOP: u16 = 1 << 4;
    pub const HDOP: u16 = 1 << 5;
    pub const SATELLITES: u16 = 1 << 6;
    pub const GPS_TIME: u16 = 1 << 7;
    pub const GPS_DATE: u16 = 1 << 8;
    pub const ALL: u16 = 0x1FF;
}

/// A log record that was read.
#[derive(Clone, Copy, Debug, PartialEq, Eq)]
pub struct LogRecord {
    /// Length of the record in bytes.
    pub length: usize,
    /// How many ordinals and values stand at the start of the lent lists.
    pub count: usize,
    /// Fields that the layout does not mark are 0.
    pub fields: LogFields,
}

/// Why a log is not read, and where the record starts that is at fault.
#[derive(Clone, Copy, Debug, PartialEq, Eq)]
#[non_exhaustive]
pub struct LogRefusal {
    pub cause: Cause,
    /// `None` if the layout is bad: then no record was looked at.
    pub start: Option<usize>,
}

impl fmt::Display for LogRefusal {
    fn fmt(&self, f: &mut fmt::Formatter) -> fmt::Result {
        match self.start {
            Some(start) => write!(f, "{}, in the record at {start}", self.cause),
            None => write!(f, "{}", self.cause),
        }
    }
}

impl Error for LogRefusal {}

/// How many optional fields a layout marks.
pub fn optional_fields(layout: u16) -> Result<u32, Cause> {
    let marks = c::log_optional_fields(layout.into());
    Cause::check(marks.number).map(|()| marks.count)
}

/// Reads the record that the bytes start with; `logged` is the header's count
/// of log values. A refusal leaves both lists as they were.
pub fn read_record(
    bytes: &[u8],
    layout: u16,
    logged: usize,
    ordinals: &mut [u8],
    values: &mut [i32],
) -> Result<LogRecord, Cause> {
    let mut record = c::LogRecord::default();
    c::log_read_record(&mut record, bytes, layout.into(), logged, ordinals, values);
    Cause::check(record.number).map(|()| LogRecord {
        length: record.length,
        count: record.count,
        fields: record.fields,
    })
}

/// Writes a record of the first `count` ordinals and values and gives its
/// length; the bytes after it are unchanged. Fields that the layout does not
/// mark are neither checked nor written.
pub fn write_record(
    to: &mut [u8],
    layout: u16,
    fields: &LogFields,
    logged: usize,
    ordinals: &[u8],
    values: &[i32],
    count: usize,
) -> Result<usize, Cause> {
    let written = c::log_write_record(to, layout.into(), fields, logged, ordinals, values, count);
    Cause::check(written.number).map(|()| written.length)
}

/// Reads a log to its end and gives the count of its records.
pub fn read(bytes: &[u8], layout: u16, logged: usize) -> Result<usize, LogRefusal> {
    let mut log = c::LogOutcome::default();
    c::log_read(&mut log, bytes, layout.into(), logged);
    match Cause::check(log.number) {
        Ok(()) => Ok(log.count),
        Err(cause) => Err(LogRefusal {
            cause,
            start: (cause != Cause::BadLayout).then_some(log.start),
        }),
    }
}

#[cfg(test)]
mod tests {
    use super::*;
    use std::string::ToString;

    const LOGGED: usize = 3;
    /// Six bytes of time and date, the optional fields, the count byte and two
    /// values.
    const LENGTH: usize = 6 + 24 + 1 + 2 * 5;

    fn fields() -> LogFields {
        LogFields {
            time: 0x0102_0304,
            days: 0x0506,
            north: -0x0708_090A,
            east: 0x0B0C_0D0E,
            up: -0x0F10_1112,
            status: 4,
            pdop: 0x1314,
            hdop: 0x1516,
            satellites: 0x17,
            gps_time: 0x1819_1A1B,
            gps_date: 0x1C1D,
        }
    }

    #[test]
    fn every_field_is_written_and_reads_back() {
        let mut bytes = [0xEE; 50];
        let (ordinals, values) = ([2, 0, 1], [-5, 6, 7]);
        let length = write_record(
            &mut bytes,
            layout::ALL,
            &fields(),
            LOGGED,
            &ordinals,
            &values,
            2,
        );
        assert_eq!(length, Ok(LENGTH));
        assert_eq!(bytes[..6], [4, 3, 2, 1, 6, 5]);
        assert_eq!(
            bytes[30..LENGTH],
            [2, 2, 0xFB, 0xFF, 0xFF, 0xFF, 0, 6, 0, 0, 0]
        );
        assert_eq!(bytes[LENGTH..], [0xEE; 9]);

        let (mut also, mut and) = ([9; 3], [9; 3]);
        let record = read_record(&bytes, layout::ALL, LOGGED, &mut also, &mut and);
        assert_eq!(
            record,
            Ok(LogRecord {
                length: LENGTH,
                count: 2,
                fields: fields()
            })
        );
        assert_eq!((also, and), ([2, 0, 9], [-5, 6, 9]));

        let twice = [&bytes[..LENGTH], &bytes[..LENGTH]].concat();
        assert_eq!(read(&twice, layout::ALL, LOGGED), Ok(2));
        let cut = read(&twice[..LENGTH + 8], layout::ALL, LOGGED);
        assert_eq!(
            cut,
            Err(LogRefusal {
                cause: Cause::CutLogRecord,
                start: Some(LENGTH)
            })
        );
    }

    #[test]
    fn a_field_without_a_mark_is_neither_judged_nor_written() {
        let mut bytes = [0; 7];
        let bad = LogFields {
            status: 9,
            ..fields()
        };
        let write = |bytes: &mut [u8], layout| write_record(bytes, layout, &bad, 0, &[], &[], 0);
        assert_eq!(write(&mut bytes, layout::STATUS), Err(Cause::BadStatus));
        assert_eq!(write(&mut bytes, 0), Ok(7));
        assert_eq!(write(&mut bytes[..6], 0), Err(Cause::NoRoomForLogRecord));
        let record = read_record(&bytes, 0, 0, &mut [], &mut []).unwrap();
        assert_eq!(
            record.fields,
            LogFields {
                time: 0x0102_0304,
                days: 0x0506,
                ..LogFields::default()
            }
        );
    }

    #[test]
    fn layouts_are_counted() {
        assert_eq!(optional_fields(layout::ALL), Ok(9));
        assert_eq!(optional_fields(layout::NORTH | layout::STATUS), Ok(2));
        assert_eq!(optional_fields(0x200), Err(Cause::BadLayout));
        assert_eq!(read(&[], layout::ALL, 0), Ok(0));
        let refusal = read(&[], 0x200, 0).unwrap_err();
        assert_eq!((refusal.cause, refusal.start), (Cause::BadLayout, None));
        assert_eq!(refusal.to_string(), "47: the layout has a bit above 8");
    }
}
