//! Pools read and checked, texts and labels.

use super::declared::{
    lachsbrille_check, lachsbrille_labels, lachsbrille_read, lachsbrille_text,
    lachsbrille_text_is_sound,
};
use super::structs::{DeviceLabels, Record};

/// Reads a pool into the table. `value` gets the count of records, or the
/// refusal's place.
#[inline]
pub fn read(pool: &[u8], table: &mut [Record], value: &mut usize) -> u32 {
    // SAFETY: the three areas are live and do not overlap for the whole call,
    // and the pointer of an empty slice is not null.
    unsafe {
        lachsbrille_read(
            pool.as_ptr(),
            pool.len(),
            table.as_mut_ptr(),
            table.len(),
            value,
        )
    }
}

/// Checks a pool. The fault buffer consists of words, five per fault. `value`
/// gets the full count of faults, or the refusal's place.
#[inline]
pub fn check(pool: &[u8], table: &mut [Record], faults: &mut [u16], value: &mut usize) -> u32 {
    // SAFETY: as for reading, with the faults as a fourth area.
    unsafe {
        lachsbrille_check(
            pool.as_ptr(),
            pool.len(),
            table.as_mut_ptr(),
            table.len(),
            faults.as_mut_ptr(),
            faults.len(),
            value,
        )
    }
}

/// Whether a text keeps rule 4.
#[inline]
pub fn text_is_sound(text: &[u8]) -> bool {
    // SAFETY: the text is live for the whole call, and the pointer of an empty
    // slice is not null.
    unsafe { lachsbrille_text_is_sound(text.as_ptr(), text.len()) }
}

/// Where the text of the first record with this ID stands in the pool; both
/// places are 0 after a refusal.
#[inline]
pub fn text(pool: &[u8], table: &mut [Record], id: u32, from: &mut usize, to: &mut usize) -> u32 {
    // SAFETY: as for reading; both places are areas of their own.
    unsafe {
        lachsbrille_text(
            pool.as_ptr(),
            pool.len(),
            table.as_mut_ptr(),
            table.len(),
            id,
            from,
            to,
        )
    }
}

/// The labels of the device.
#[inline]
pub fn labels(out: &mut DeviceLabels, pool: &[u8], table: &mut [Record]) {
    // SAFETY: as for reading; the result is an area of its own.
    unsafe {
        lachsbrille_labels(
            out,
            pool.as_ptr(),
            pool.len(),
            table.as_mut_ptr(),
            table.len(),
        )
    }
}
