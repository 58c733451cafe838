//! Rules 1 to 3 on IDs and devices, 10 and 11 on the whole pool.

use crate::pools::{faults, faults_after_device, pool, Bytes, Det, Dpd, Dpt, Dvc, Dvp};

const NO_FAULTS: [(u16, u8, u16); 0] = [];

#[test]
fn a_device_has_the_id_0() {
    for id in [2, 65_534] {
        let device = Dvc {
            id,
            ..Dvc::default()
        };
        let element = Det {
            parent: id,
            ..Det::root()
        };
        assert_eq!(faults(&pool(&[&device, &element])), [(1, 1, 1)]);
    }
}

#[test]
fn a_device_with_the_id_65535_is_no_parent() {
    let device = Dvc {
        id: 65_535,
        ..Dvc::default()
    };
    let element = Det {
        parent: 65_535,
        ..Det::root()
    };
    let expected = [(1, 1, 1), (2, 6, 1)];
    assert_eq!(faults(&pool(&[&device, &element])), expected);
}

/// A record of each kind but the device, with this ID.
fn others(id: u16) -> [Box<dyn Bytes>; 4] {
    let element = Det {
        id,
        number: 1,
        ..Det::default()
    };
    let data = Dpd {
        id,
        ..Dpd::default()
    };
    let property = Dpt {
        id,
        ..Dpt::default()
    };
    let presentation = Dvp {
        id,
        ..Dvp::default()
    };
    [
        Box::new(element),
        Box::new(data),
        Box::new(property),
        Box::new(presentation),
    ]
}

#[test]
fn other_records_have_neither_0_nor_65535() {
    for record in others(65_535) {
        assert_eq!(faults_after_device(&[&*record]), [(3, 1, 1)]);
    }
    for record in others(0) {
        assert_eq!(faults_after_device(&[&*record]), [(3, 1, 1), (3, 2, 1)]);
    }
    for record in others(2).into_iter().chain(others(65_534)) {
        assert_eq!(faults_after_device(&[&*record]), NO_FAULTS);
    }
}

#[test]
fn ids_are_not_repeated_among_any_kinds() {
    for record in others(1) {
        assert_eq!(faults_after_device(&[&*record]), [(3, 2, 1)]);
    }
    for first in others(7) {
        for second in &others(7)[1..] {
            let found = faults_after_device(&[&*first, &**second]);
            assert_eq!(found, [(4, 2, 1)]);
        }
    }
}

#[test]
fn each_repetition_of_an_id_is_a_fault_also_of_65535() {
    let data = Dpd::default();
    let found = faults_after_device(&[&data, &data, &data]);
    assert_eq!(found, [(4, 2, 1), (5, 2, 1)]);
    let data = Dpd { id: 65_535, ..data };
    let found = faults_after_device(&[&data, &data]);
    assert_eq!(found, [(3, 1, 1), (4, 1, 1), (4, 2, 1)]);
}

#[test]
fn each_device_after_the_first_is_a_fault() {
    let other = Dvc {
        id: 9,
        ..Dvc::default()
    };
    let found = faults_after_device(&[&other]);
    assert_eq!(found, [(3, 1, 1), (3, 3, 1)]);
    let found = faults_after_device(&[&Dvc::default(), &other]);
    let expected = [(3, 2, 1), (3, 3, 1), (4, 1, 1), (4, 3, 1)];
    assert_eq!(found, expected);
}

#[test]
fn the_only_device_may_come_last() {
    let found = faults(&pool(&[&Det::root(), &Dpd::default(), &Dvc::default()]));
    assert_eq!(found, NO_FAULTS);
}

#[test]
fn a_pool_needs_a_device() {
    let found = faults(&pool(&[&Det::root()]));
    assert_eq!(found, [(0, 10, 1), (1, 6, 1)]);
    assert_eq!(faults(&pool(&[&Dpd::default()])), [(0, 10, 1), (0, 11, 1)]);
}

#[test]
fn a_pool_needs_an_element_of_type_1() {
    let typed = |element_type, id, number| Det {
        id,
        element_type,
        number,
        ..Det::default()
    };
    let found = faults(&pool(&[&Dvc::default(), &typed(2, 1, 0)]));
    assert_eq!(found, [(0, 11, 1)]);
    let found = faults(&pool(&[&Dvc::default(), &typed(0, 1, 0)]));
    assert_eq!(found, [(0, 11, 1), (2, 5, 1)]);
    let found = faults(&pool(&[&Dvc::default(), &typed(2, 1, 0), &typed(1, 2, 1)]));
    assert_eq!(found, NO_FAULTS);
}

#[test]
fn two_elements_of_type_1_are_no_fault() {
    let other = Det {
        id: 2,
        number: 1,
        ..Det::root()
    };
    assert_eq!(faults_after_device(&[&other]), NO_FAULTS);
}
