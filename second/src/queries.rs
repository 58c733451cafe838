//! Texts and labels of an accepted pool.

use crate::fields::{Device, Element, Presentation, ProcessData, Property};
use crate::pool::{Kind, Record};
use crate::rules::read_and_check;

/// Refusals that reading does not have.
const FAULTY_POOL: u8 = 24;
const UNKNOWN_ID: u8 = 28;

/// The labels of a pool's device. Unused bytes are zero.
#[derive(Clone, Copy, Debug, Default, PartialEq, Eq)]
pub struct Labels {
    pub structure: [u8; 7],
    pub localization: [u8; 7],
    pub extended: [u8; 32],
    pub extended_len: usize,
}

/// The designator or unit text of the record with this ID, as a part of
/// `pool`, or the number of the refusal. The table is filled whenever the
/// pool is read.
pub fn text<'a>(pool: &'a [u8], table: &mut [Record], id: u32) -> Result<&'a [u8], u8> {
    let records = accepted_records(pool, table)?;
    let record = records
        .iter()
        .find(|record| u32::from(record.id) == id)
        .ok_or(UNKNOWN_ID)?;
    let bytes = record.bytes(pool);
    let text = match record.kind {
        Kind::Dvc => Device::of(bytes).designator,
        Kind::Det => Element::of(bytes).designator,
        Kind::Dpd => ProcessData::of(bytes).designator,
        Kind::Dpt => Property::of(bytes).designator,
        Kind::Dvp => Presentation::of(bytes).unit,
    };
    Ok(text.bytes())
}

/// The labels of the device, or the number of the refusal. The table is
/// filled whenever the pool is read.
pub fn labels(pool: &[u8], table: &mut [Record]) -> Result<Labels, u8> {
    let records = accepted_records(pool, table)?;
    let device = records
        .iter()
        .find(|record| record.kind == Kind::Dvc)
        .expect("an accepted pool has a device");
    let device = Device::of(device.bytes(pool));
    let mut labels = Labels {
        structure: device.structure,
        localization: device.localization,
        extended_len: device.extended.len(),
        ..Labels::default()
    };
    labels.extended[..device.extended.len()].copy_from_slice(device.extended);
    Ok(labels)
}

/// The records of a pool without faults.
pub(crate) fn accepted_records<'a>(
    pool: &[u8],
    table: &'a mut [Record],
) -> Result<&'a [Record], u8> {
    match read_and_check(pool, table, &mut []) {
        Ok((records, 0)) => Ok(records),
        Ok(_) => Err(FAULTY_POOL),
        Err(refusal) => Err(refusal.number),
    }
}
