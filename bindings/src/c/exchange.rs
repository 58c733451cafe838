//! Process data messages, judged commands and displayed values.

use super::declared::{
    lachsbrille_displayed, lachsbrille_judge, lachsbrille_message_read,
    lachsbrille_message_write_acknowledge, lachsbrille_message_write_value,
};
use super::structs::{MessageFields, Record};

/// Reads a message.
#[inline]
pub fn message_read(bytes: &[u8]) -> MessageFields {
    // SAFETY: the bytes are live for the whole call, and the pointer of an
    // empty slice is not null.
    unsafe { lachsbrille_message_read(bytes.as_ptr(), bytes.len()) }
}

/// Writes a value message into the first eight bytes.
#[inline]
pub fn message_write_value(to: &mut [u8], command: u32, element: u32, ddi: u16, value: i32) -> u32 {
    // SAFETY: as for reading.
    unsafe {
        lachsbrille_message_write_value(to.as_mut_ptr(), to.len(), command, element, ddi, value)
    }
}

/// Writes an acknowledge into the first eight bytes.
#[inline]
pub fn message_write_acknowledge(
    to: &mut [u8],
    element: u32,
    ddi: u16,
    errors: u8,
    answered: u32,
) -> u32 {
    // SAFETY: as for reading.
    unsafe {
        lachsbrille_message_write_acknowledge(
            to.as_mut_ptr(),
            to.len(),
            element,
            ddi,
            errors,
            answered,
        )
    }
}

/// Judges a command to the device by its accepted pool; `error` gets the error
/// byte, or 0 if the call is refused.
#[inline]
pub fn judge(
    pool: &[u8],
    table: &mut [Record],
    command: u32,
    element: u32,
    ddi: u16,
    value: i32,
    error: &mut u8,
) -> u32 {
    // SAFETY: pool, table and error are live and do not overlap for the whole
    // call, and the pointer of an empty slice is not null.
    unsafe {
        lachsbrille_judge(
            pool.as_ptr(),
            pool.len(),
            table.as_mut_ptr(),
            table.len(),
            command,
            element,
            ddi,
            value,
            error,
        )
    }
}

/// Puts the displayed value into `result`, or 0 if the call is refused.
#[inline]
pub fn displayed(value: i32, offset: i32, scale: f32, decimals: u32, result: &mut f64) -> u32 {
    // SAFETY: the result is live for the whole call.
    unsafe { lachsbrille_displayed(value, offset, scale, decimals, result) }
}
