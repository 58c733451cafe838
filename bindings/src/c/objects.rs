//! The fields of a record, given a pool and the place where the record starts.
//! Any pool and any start may be given: nothing is checked, and bytes past the
//! pool's end are read as 0.

use super::declared::{
    lachsbrille_read_device, lachsbrille_read_element, lachsbrille_read_entry,
    lachsbrille_read_presentation, lachsbrille_read_process_data, lachsbrille_read_property,
};
use super::structs::{Device, Element, Presentation, ProcessData, Property};

/// Reads the fields of a device.
#[inline]
pub fn read_device(out: &mut Device, pool: &[u8], start: u16) {
    // SAFETY: pool and result are live and do not overlap for the whole call,
    // and the pointer of an empty slice is not null.
    unsafe { lachsbrille_read_device(out, pool.as_ptr(), pool.len(), start) }
}

/// Reads the fields of a device element.
#[inline]
pub fn read_element(out: &mut Element, pool: &[u8], start: u16) {
    // SAFETY: as for a device.
    unsafe { lachsbrille_read_element(out, pool.as_ptr(), pool.len(), start) }
}

/// The ID that entry `n` of a device element's list names, counted from 0.
/// Past the end of the list, bytes are read as though it went on.
#[inline]
pub fn read_entry(pool: &[u8], start: u16, n: u16) -> u16 {
    // SAFETY: as for a device, with no result in memory.
    unsafe { lachsbrille_read_entry(pool.as_ptr(), pool.len(), start, n) }
}

/// Reads the fields of a device process data.
#[inline]
pub fn read_process_data(out: &mut ProcessData, pool: &[u8], start: u16) {
    // SAFETY: as for a device.
    unsafe { lachsbrille_read_process_data(out, pool.as_ptr(), pool.len(), start) }
}

/// Reads the fields of a device property.
#[inline]
pub fn read_property(out: &mut Property, pool: &[u8], start: u16) {
    // SAFETY: as for a device.
    unsafe { lachsbrille_read_property(out, pool.as_ptr(), pool.len(), start) }
}

/// Reads the fields of a device value presentation.
#[inline]
pub fn read_presentation(out: &mut Presentation, pool: &[u8], start: u16) {
    // SAFETY: as for a device.
    unsafe { lachsbrille_read_presentation(out, pool.as_ptr(), pool.len(), start) }
}
