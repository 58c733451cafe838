//! The fields of a record, given a pool and a start.

use crate::pools::{pool_of_all_kinds, pool_q, table_for};
use second::{
    read_device, read_element, read_entry, read_pool, read_presentation, read_process_data,
    read_property, text, DeviceView, ElementView, Kind, PresentationView, ProcessDataView,
    PropertyView,
};
use std::ops::Range;

/// A record of each kind, with bytes that all differ. None starts at 0.
const RECORDS: &[u8] = b"??\
    DVC\x01\x02\x03abc\x02de\x11\x12\x13\x14\x15\x16\x17\x18\x01fSTRUCTULOCALIZ\x04ghij\
    DET\x03\x04\x05\x02kl\x06\x07\x08\x09\x02\x00\x0A\x0B\x0C\x0D\
    DPD\x0E\x0F\x10\x11\x12\x13\x01m\x14\x15\
    DPT\x16\x17\x18\x19\x1A\x1B\x1C\xFD\x00\x1D\x1E\
    DVP\x1F\x20\x21\x22\x23\xF4\x25\x26\x27\x28\x29\x03nop";
const DEVICE: u16 = 2;
const ELEMENT: u16 = DEVICE + 41;
const DATA: u16 = ELEMENT + 19;
const PROPERTY: u16 = DATA + 13;
const PRESENTATION: u16 = PROPERTY + 14;

#[test]
fn fields_stand_where_annex_a_has_them() {
    let device = DeviceView {
        designator: 8..11,
        version: 12..14,
        name: 0x1817_1615_1413_1211,
        serial: 23..24,
        structure: 24..31,
        localization: 31..38,
        extended: 39..43,
    };
    assert_eq!(read_device(RECORDS, DEVICE), device);
    assert_eq!(RECORDS[device.structure], *b"STRUCTU");
    assert_eq!(RECORDS[device.localization], *b"LOCALIZ");
    assert_eq!(RECORDS[device.extended], *b"ghij");

    let element = ElementView {
        element_type: 5,
        designator: 50..52,
        number: 0x0706,
        parent: 0x0908,
        entries: 2,
    };
    assert_eq!(read_element(RECORDS, ELEMENT), element);
    assert_eq!(RECORDS[element.designator], *b"kl");
    assert_eq!(read_entry(RECORDS, ELEMENT, 0), 0x0B0A);
    assert_eq!(read_entry(RECORDS, ELEMENT, 1), 0x0D0C);
    // After its list the next record begins.
    let next = u16::from_le_bytes(*b"DP");
    assert_eq!(read_entry(RECORDS, ELEMENT, 2), next);

    let data = ProcessDataView {
        ddi: 0x1110,
        properties: 0x12,
        triggers: 0x13,
        designator: 72..73,
        presentation: 0x1514,
    };
    assert_eq!(read_process_data(RECORDS, DATA), data);

    let property = PropertyView {
        ddi: 0x1918,
        value: -0x02E3_E4E6,
        designator: 87..87,
        presentation: 0x1E1D,
    };
    assert_eq!(read_property(RECORDS, PROPERTY), property);

    let presentation = PresentationView {
        offset: -0x0BDC_DDDF,
        scale_bits: 0x2827_2625,
        decimals: 0x29,
        unit: 104..107,
    };
    assert_eq!(read_presentation(RECORDS, PRESENTATION), presentation);
    assert_eq!(RECORDS.len(), 107);
}

/// The designator or unit text, by the record's kind.
fn designator(pool: &[u8], kind: Kind, start: u16) -> Range<usize> {
    match kind {
        Kind::Dvc => read_device(pool, start).designator,
        Kind::Det => read_element(pool, start).designator,
        Kind::Dpd => read_process_data(pool, start).designator,
        Kind::Dpt => read_property(pool, start).designator,
        Kind::Dvp => read_presentation(pool, start).unit,
    }
}

#[test]
fn texts_are_those_of_a_query() {
    for pool in [pool_of_all_kinds(), pool_q()] {
        let mut table = table_for(&pool);
        let count = read_pool(&pool, &mut table).unwrap();
        for record in table.clone().into_iter().take(count) {
            let asked = text(&pool, &mut table, record.id.into()).unwrap();
            let viewed = &pool[designator(&pool, record.kind, record.start)];
            assert!(std::ptr::eq(asked, viewed));
        }
    }
}

#[test]
fn a_byte_that_is_not_there_is_0() {
    let long = [RECORDS, &[0; 70_000]].concat();
    for length in 0..=RECORDS.len() {
        let cut = &RECORDS[..length];
        let filled = [cut, &long[RECORDS.len()..]].concat();
        for start in (0..=RECORDS.len() as u16).chain([32_767, 65_535]) {
            assert_eq!(read_device(cut, start), read_device(&filled, start));
            assert_eq!(read_element(cut, start), read_element(&filled, start));
            for n in [0, 1, 65_535] {
                let entry = read_entry(&filled, start, n);
                assert_eq!(read_entry(cut, start, n), entry);
            }
            let data = read_process_data(&filled, start);
            assert_eq!(read_process_data(cut, start), data);
            assert_eq!(read_property(cut, start), read_property(&filled, start));
            let presentation = read_presentation(&filled, start);
            assert_eq!(read_presentation(cut, start), presentation);
        }
    }
    assert_eq!(read_element(&[], 65_535).designator, 65_542..65_542);
}

#[test]
fn a_length_is_taken_as_it_stands() {
    let long = [b"DPD\0\0\0\0\0\0\xFF".to_vec(), vec![7; 300]].concat();
    let data = read_process_data(&long, 0);
    assert_eq!((data.designator, data.presentation), (10..265, 0x0707));
}
