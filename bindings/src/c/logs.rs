//! Log records and logs.

use super::declared::{
    lachsbrille_log_optional_fields, lachsbrille_log_read, lachsbrille_log_read_record,
    lachsbrille_log_write_record,
};
use super::structs::{LogFields, LogMarks, LogOutcome, LogRecord, LogWritten};

/// How many optional fields a layout marks.
#[inline]
pub fn log_optional_fields(layout: u32) -> LogMarks {
    // SAFETY: the function takes and gives numbers.
    unsafe { lachsbrille_log_optional_fields(layout) }
}

/// Reads the record that the bytes start with. `logged` is the header's count
/// of log values.
#[inline]
pub fn log_read_record(
    out: &mut LogRecord,
    bytes: &[u8],
    layout: u32,
    logged: usize,
    ordinals: &mut [u8],
    values: &mut [i32],
) {
    // SAFETY: the areas and the result are live and do not overlap for the
    // whole call, and the pointer of an empty slice is not null.
    unsafe {
        lachsbrille_log_read_record(
            out,
            bytes.as_ptr(),
            bytes.len(),
            layout,
            logged,
            ordinals.as_mut_ptr(),
            ordinals.len(),
            values.as_mut_ptr(),
            values.len(),
        )
    }
}

/// Writes a record of the first `count` ordinals and values.
#[inline]
pub fn log_write_record(
    to: &mut [u8],
    layout: u32,
    fields: &LogFields,
    logged: usize,
    ordinals: &[u8],
    values: &[i32],
    count: usize,
) -> LogWritten {
    // SAFETY: as for reading; the fields are only read.
    unsafe {
        lachsbrille_log_write_record(
            to.as_mut_ptr(),
            to.len(),
            layout,
            fields,
            logged,
            ordinals.as_ptr(),
            ordinals.len(),
            values.as_ptr(),
            values.len(),
            count,
        )
    }
}

/// Reads the records of a log to its end.
#[inline]
pub fn log_read(out: &mut LogOutcome, bytes: &[u8], layout: u32, logged: usize) {
    // SAFETY: bytes and result are live and do not overlap for the whole call,
    // and the pointer of an empty slice is not null.
    unsafe { lachsbrille_log_read(out, bytes.as_ptr(), bytes.len(), layout, logged) }
}
