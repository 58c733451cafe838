//! Judges commands to a device by its accepted pool.

use crate::fields::{ddi as ddi_of, Element, ProcessData};
use crate::messages::carries_value;
use crate::pool::{Kind, Record};
use crate::queries::accepted_records;
use crate::rules::{MAX_ELEMENT_NUMBER, SETTABLE};

const BAD_ELEMENT_NUMBER: u8 = 32;

const NO_ERROR: u8 = 0;
const COMMAND_NOT_SUPPORTED: u8 = 0x01;
const NO_SUCH_ELEMENT: u8 = 0x02;
const NO_SUCH_DDI: u8 = 0x04;
const NO_SUCH_TRIGGER: u8 = 0x08;
const NOT_SETTABLE: u8 = 0x10;
const BAD_VALUE: u8 = 0x20;

const TIME_INTERVAL: u32 = 4;
const DISTANCE_INTERVAL: u32 = 5;

/// What a data record allows.
struct Allowed {
    settable: bool,
    triggers: u8,
}

/// The error byte for a command, or the number of the refusal. The table is
/// filled whenever the pool is read; refusal 32 leaves it as it was.
pub fn judge(
    pool: &[u8],
    table: &mut [Record],
    command: u32,
    element: u32,
    ddi: u16,
    value: i32,
) -> Result<u8, u8> {
    if element > MAX_ELEMENT_NUMBER.into() {
        return Err(BAD_ELEMENT_NUMBER);
    }
    let records = accepted_records(pool, table)?;
    if !carries_value(command) {
        return Ok(COMMAND_NOT_SUPPORTED);
    }
    let Some(element) = find_element(pool, records, element) else {
        return Ok(NO_SUCH_ELEMENT);
    };
    let Some(data) = find_data(pool, records, &element, ddi) else {
        return Ok(NO_SUCH_DDI);
    };
    Ok(data.judge(command, value))
}

fn find_element<'a>(pool: &'a [u8], records: &[Record], number: u32) -> Option<Element<'a>> {
    records
        .iter()
        .filter(|record| record.kind == Kind::Det)
        .map(|record| Element::of(record.bytes(pool)))
        .find(|element| u32::from(element.number) == number)
}

/// Looks for the DDI among the records first: few have it, and only these are
/// searched for in the element's list.
fn find_data(pool: &[u8], records: &[Record], element: &Element, ddi: u16) -> Option<Allowed> {
    records
        .iter()
        .filter(|record| matches!(record.kind, Kind::Dpd | Kind::Dpt))
        .filter(|record| ddi_of(record.bytes(pool)) == ddi)
        .find(|record| element.entries().any(|entry| entry == record.id))
        .map(|record| Allowed::by(pool, record))
}

impl Allowed {
    fn by(pool: &[u8], record: &Record) -> Self {
        if record.kind == Kind::Dpt {
            return Allowed {
                settable: false,
                triggers: 0,
            };
        }
        let data = ProcessData::of(record.bytes(pool));
        Allowed {
            settable: data.properties & SETTABLE != 0,
            triggers: data.triggers,
        }
    }

    /// The error byte for a command with a value.
    fn judge(&self, command: u32, value: i32) -> u8 {
        let is_interval = matches!(command, TIME_INTERVAL | DISTANCE_INTERVAL);
        let trigger = match command {
            3 | 0xA if !self.settable => return NOT_SETTABLE,
            TIME_INTERVAL => 1,
            DISTANCE_INTERVAL => 1 << 1,
            6 | 7 => 1 << 2,
            8 => 1 << 3,
            _ => 0,
        };
        if self.triggers & trigger != trigger {
            NO_SUCH_TRIGGER
        } else if is_interval && value < 0 {
            BAD_VALUE
        } else {
            NO_ERROR
        }
    }
}
