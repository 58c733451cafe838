//! The test vector of a time log.

use super::draft::Draft;
use super::library::{Fields, Log, Record};
use crate::library::Of;
use crate::vectors;
use second::LogFields;
use std::io;

const NAME: &str = "log-000-d49.hex";

/// A log of one record, and what is known of it.
pub struct Vector {
    pub bytes: Vec<u8>,
    pub draft: Draft,
    pub record: Record,
    pub log: Log,
}

impl Vector {
    pub fn load() -> io::Result<Self> {
        let fields = LogFields {
            time: 59_520_000,
            days: 9_253,
            north: 510_067_800,
            east: 60_348_900,
            status: 1,
            ..LogFields::default()
        };
        Ok(Vector {
            bytes: vectors::load_bytes(NAME)?,
            draft: Draft {
                layout: 0x00B,
                logged: 2,
                fields,
                ordinals: vec![0, 1],
                values: vec![10, 15],
            },
            record: Record {
                number: 0,
                length: 26,
                count: 2,
                fields: Fields::of(&fields),
            },
            log: Log {
                number: 0,
                count: 1,
                start: 0,
            },
        })
    }
}

#[cfg(test)]
mod tests {
    use super::*;

    #[test]
    fn the_draft_is_the_vector() {
        let vector = Vector::load().unwrap();
        assert_eq!(vector.draft.bytes(), vector.bytes);
        assert_eq!(vector.draft.record(), vector.record);
    }
}
