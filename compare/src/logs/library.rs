//! The proved static library's log functions, through its bindings.

pub use lachsbrille::c::{
    log_optional_fields as optional_fields, log_read as read_log_into,
    log_read_record as read_record_into, log_write_record as write_record, LogFields as Fields,
    LogMarks as Marks, LogOutcome as Log, LogRecord as Record, LogWritten as Written,
};

use crate::library::{Of, UNWRITTEN};
use second::{LogFields, LogRecord, LogRefusal};

/// Reads a record. Before the call the result holds what no call gives, so
/// that a field which is not written is noticed.
pub fn read_record(
    bytes: &[u8],
    layout: u32,
    logged: usize,
    ordinals: &mut [u8],
    values: &mut [i32],
) -> Record {
    const WORD: u16 = 0xA5A5;
    const LONG: i32 = 0x5A5A_A5A5;
    let mut record = Record {
        number: u32::MAX,
        length: UNWRITTEN,
        count: UNWRITTEN,
        fields: Fields {
            time: u32::MAX,
            days: WORD,
            north: LONG,
            east: LONG,
            up: LONG,
            status: 0xA5,
            pdop: WORD,
            hdop: WORD,
            satellites: 0xA5,
            gps_time: u32::MAX,
            gps_date: WORD,
        },
    };
    read_record_into(&mut record, bytes, layout, logged, ordinals, values);
    record
}

/// Reads a log, likewise.
pub fn read_log(bytes: &[u8], layout: u32, logged: usize) -> Log {
    let mut log = Log {
        number: u32::MAX,
        count: UNWRITTEN,
        start: UNWRITTEN,
    };
    read_log_into(&mut log, bytes, layout, logged);
    log
}

impl Of<&LogFields> for Fields {
    fn of(fields: &LogFields) -> Self {
        let LogFields {
            time,
            days,
            north,
            east,
            up,
            status,
            pdop,
            hdop,
            satellites,
            gps_time,
            gps_date,
        } = *fields;
        Fields {
            time,
            days,
            north,
            east,
            up,
            status,
            pdop,
            hdop,
            satellites,
            gps_time,
            gps_date,
        }
    }
}

impl Of<Result<u32, u8>> for Marks {
    fn of(result: Result<u32, u8>) -> Self {
        Marks {
            number: result.err().unwrap_or(0).into(),
            count: result.unwrap_or(0),
        }
    }
}

impl Of<Result<LogRecord, u8>> for Record {
    fn of(result: Result<LogRecord, u8>) -> Self {
        match result {
            Ok(record) => Record {
                number: 0,
                length: record.length,
                count: record.count,
                fields: Fields::of(&record.fields),
            },
            Err(number) => Record {
                number: number.into(),
                ..Record::default()
            },
        }
    }
}

impl Of<Result<usize, u8>> for Written {
    fn of(result: Result<usize, u8>) -> Self {
        Written {
            number: result.err().unwrap_or(0).into(),
            length: result.unwrap_or(0),
        }
    }
}

impl Of<Result<usize, LogRefusal>> for Log {
    fn of(result: Result<usize, LogRefusal>) -> Self {
        match result {
            Ok(count) => Log {
                count,
                ..Log::default()
            },
            Err(refusal) => Log {
                number: refusal.number.into(),
                start: refusal.start,
                count: 0,
            },
        }
    }
}
