//! Rules 8 and 12, and the order of the faults of one device element.

use crate::pools::{faults, faults_after_device, pool, Bytes, Det, Dpd, Dpt, Dvc, Dvp};

const NO_FAULTS: [(u16, u8, u16); 0] = [];

fn data(id: u16, ddi: u16) -> Dpd<'static> {
    Dpd {
        id,
        ddi,
        ..Dpd::default()
    }
}

fn property(id: u16, ddi: u16) -> Dpt<'static> {
    Dpt {
        id,
        ddi,
        ..Dpt::default()
    }
}

/// The faults of a list, as record 2. The IDs 20 to 22 are process data of
/// the DDIs 1, 1 and 2; 30 and 31 are properties of the DDIs 1 and 3; 40 is a
/// presentation; 50 to 59 are not carried.
fn faults_of_list(entries: &[u16]) -> Vec<(u16, u8, u16)> {
    let element = Det {
        entries,
        ..Det::root()
    };
    faults(&pool(&[
        &Dvc::default(),
        &element,
        &data(20, 1),
        &data(21, 1),
        &data(22, 2),
        &property(30, 1),
        &property(31, 3),
        &Dvp::default(),
    ]))
}

#[test]
fn a_list_names_no_ddi_twice() {
    assert_eq!(faults_of_list(&[20, 22, 31]), NO_FAULTS);
    assert_eq!(faults_of_list(&[20, 21]), [(2, 12, 3)]);
    assert_eq!(faults_of_list(&[21, 22, 20]), [(2, 12, 4)]);
}

#[test]
fn process_data_and_properties_share_their_ddis() {
    assert_eq!(faults_of_list(&[20, 30]), [(2, 12, 3)]);
    assert_eq!(faults_of_list(&[30, 20]), [(2, 12, 3)]);
    assert_eq!(faults_of_list(&[20, 31]), NO_FAULTS);
}

#[test]
fn the_same_id_twice_is_the_same_ddi_twice() {
    assert_eq!(faults_of_list(&[22, 22]), [(2, 12, 3)]);
}

#[test]
fn each_later_entry_is_one_fault() {
    let expected = [(2, 12, 3), (2, 12, 5), (2, 12, 6)];
    assert_eq!(faults_of_list(&[20, 21, 22, 30, 20]), expected);
}

#[test]
fn entries_that_name_no_data_neither_breach_nor_count() {
    assert_eq!(faults_of_list(&[50, 50]), [(2, 6, 2), (2, 6, 3)]);
    assert_eq!(faults_of_list(&[40, 40]), [(2, 7, 2), (2, 7, 3)]);
    let expected = [(2, 6, 3), (2, 7, 4), (2, 12, 5)];
    assert_eq!(faults_of_list(&[20, 50, 40, 21]), expected);
    let expected = [(2, 6, 2), (2, 7, 3)];
    assert_eq!(faults_of_list(&[50, 40, 20, 22]), expected);
}

#[test]
fn another_list_may_name_the_same_ddi() {
    let element = |id, number| Det {
        id,
        number,
        entries: &[20, 22],
        ..Det::default()
    };
    let records: [&dyn Bytes; 4] = [&element(2, 1), &element(3, 2), &data(20, 1), &data(22, 2)];
    assert_eq!(faults_after_device(&records), NO_FAULTS);
}

#[test]
fn ddis_are_whole_16_bit_numbers() {
    let element = |entries| Det {
        id: 2,
        number: 1,
        entries,
        ..Det::default()
    };
    let found = |entries| {
        faults_after_device(&[
            &element(entries),
            &data(20, 0x0102),
            &data(21, 0x0002),
            &data(22, 0x0100),
            &data(23, 0x0000),
            &data(24, 0xFFFF),
            &data(25, 0xFFFF),
        ])
    };
    assert_eq!(found(&[20, 21, 22, 23, 24]), NO_FAULTS);
    assert_eq!(found(&[20, 21, 22, 23, 24, 25]), [(3, 12, 7)]);
}

#[test]
fn a_repeated_id_stands_for_the_ddi_of_its_first_carrier() {
    let element = Det {
        id: 2,
        number: 1,
        entries: &[20, 21],
        ..Det::default()
    };
    let found = faults_after_device(&[&element, &data(20, 1), &data(21, 2), &data(20, 2)]);
    assert_eq!(found, [(6, 2, 1)]);
    let found = faults_after_device(&[&element, &data(20, 2), &data(21, 2), &data(20, 1)]);
    assert_eq!(found, [(3, 12, 3), (6, 2, 1)]);
}

#[test]
fn element_numbers_are_not_repeated() {
    let element = |id, number| Det {
        id,
        number,
        ..Det::default()
    };
    let found = faults_after_device(&[&element(2, 1), &element(3, 2)]);
    assert_eq!(found, NO_FAULTS);
    let found = faults_after_device(&[&element(2, 1), &element(3, 0), &element(4, 1)]);
    assert_eq!(found, [(4, 8, 1), (5, 8, 1)]);
}

#[test]
fn element_numbers_over_4095_are_compared_whole() {
    let element = |id, number| Det {
        id,
        number,
        ..Det::default()
    };
    let found = faults_after_device(&[&element(2, 4_096), &element(3, 4_096)]);
    assert_eq!(found, [(3, 5, 2), (4, 5, 2), (4, 8, 1)]);
    // In its low twelve bits 8,192 would be 0, the first element's number.
    let found = faults_after_device(&[&element(2, 8_192), &element(3, 65_535)]);
    assert_eq!(found, [(3, 5, 2), (4, 5, 2)]);
}

#[test]
fn all_faults_of_an_element_in_order() {
    let mut pool = pool(&[&Dvc::default(), &data(20, 1), &Dvp::default()]);
    pool.extend(
        Det {
            id: 20,
            element_type: 9,
            designator: b"\xFF",
            number: 5_000,
            parent: 40,
            entries: &[20, 50, 40, 20, 65_535, 0, 20],
        }
        .bytes(),
    );
    let expected = [
        (0, 11, 1),
        (4, 2, 1),
        (4, 4, 1),
        (4, 5, 1),
        (4, 5, 2),
        (4, 6, 3),
        (4, 6, 6),
        (4, 7, 1),
        (4, 7, 4),
        (4, 7, 7),
        (4, 12, 5),
        (4, 12, 8),
    ];
    assert_eq!(faults(&pool), expected);
}

#[test]
fn rules_8_and_9_stand_between_7_and_12() {
    let element = Det {
        id: 2,
        number: 0,
        parent: 2,
        entries: &[40, 20, 20, 50],
        ..Det::default()
    };
    let found = faults_after_device(&[&element, &data(20, 1), &Dvp::default()]);
    let expected = [(3, 6, 5), (3, 7, 2), (3, 8, 1), (3, 9, 1), (3, 12, 4)];
    assert_eq!(found, expected);
}

#[test]
fn the_longest_list_has_a_fault_for_each_entry() {
    // P's records have 44 bytes, a process data record 12.
    let entries = vec![20; (65_535 - 44 - 12) / 2];
    let element = Det {
        entries: &entries,
        ..Det::root()
    };
    let found = faults(&pool(&[&Dvc::default(), &element, &data(20, 1)]));
    let expected: Vec<_> = (3..=entries.len() as u16 + 1)
        .map(|item| (2, 12, item))
        .collect();
    assert_eq!(found, expected);
    let found = faults(&pool(&[&Dvc::default(), &element, &data(21, 1)]));
    let expected: Vec<_> = (2..=entries.len() as u16 + 1)
        .map(|item| (2, 6, item))
        .collect();
    assert_eq!(found, expected);
}
