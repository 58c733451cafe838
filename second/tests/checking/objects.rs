//! The object that a table entry or a fault names: its ID and its parent's.

use crate::pools::{
    after_device, all_faults, fault, pool, pool_of_all_kinds, pool_p, pool_q, table_for,
};
use crate::pools::{Bytes, Det, Dpd, Dpt, Dvc, Dvp};
use second::{check, read_pool, Fault, Kind};

/// Kind, ID and parent of each record.
fn objects(pool: &[u8]) -> Vec<(Kind, u16, u16)> {
    let mut table = table_for(pool);
    let count = read_pool(pool, &mut table).unwrap();
    let entries = table[..count].iter();
    entries.map(|it| (it.kind, it.id, it.parent)).collect()
}

#[test]
fn only_elements_have_a_parent() {
    let expected = [
        (Kind::Dvc, 0, 65_535),
        (Kind::Det, 1, 0),
        (Kind::Det, 2, 1),
        (Kind::Dpd, 20, 65_535),
        (Kind::Dpt, 30, 65_535),
        (Kind::Dvp, 40, 65_535),
    ];
    assert_eq!(objects(&pool_of_all_kinds()), expected);
}

#[test]
fn a_parent_is_taken_as_it_stands_whatever_it_names() {
    // A device, the element itself, process data, its low and high byte
    // exchanged, nothing, and 65535.
    for parent in [0, 2, 20, 0x1400, 9, 65_534, 65_535] {
        for designator in [&b""[..], b"a", b"boom", &[b'x'; 128]] {
            for entries in [&[][..], &[20], &[20, 9, 0]] {
                let element = Det {
                    id: 2,
                    designator,
                    number: 3,
                    parent,
                    entries,
                    ..Det::default()
                };
                let pool = after_device(&[&element, &Dpd::default()]);
                let expected = [
                    (Kind::Dvc, 0, 65_535),
                    (Kind::Det, 1, 0),
                    (Kind::Det, 2, parent),
                    (Kind::Dpd, 20, 65_535),
                ];
                assert_eq!(objects(&pool), expected);
            }
        }
    }
}

/// A parent is that of the record, and not of the first one with its ID.
#[test]
fn elements_with_the_same_id_have_parents_of_their_own() {
    let element = |number, parent| Det {
        number,
        parent,
        ..Det::default()
    };
    let pool = after_device(&[&element(1, 9), &element(2, 1)]);
    let expected = [(Kind::Det, 1, 0), (Kind::Det, 1, 9), (Kind::Det, 1, 1)];
    assert_eq!(objects(&pool)[1..], expected);
    let expected = [
        fault(3, 2, 1, 1, 9),
        fault(3, 6, 1, 1, 9),
        fault(4, 2, 1, 1, 1),
    ];
    assert_eq!(all_faults(&pool), expected);
}

#[test]
fn all_faults_of_an_element_name_it_and_its_parent() {
    let element = Det {
        id: 20,
        element_type: 9,
        designator: b"\xFF",
        number: 5_000,
        parent: 40,
        entries: &[20, 50, 40, 20],
    };
    let again = Det {
        id: 65_535,
        number: 5_000,
        parent: 50,
        ..Det::default()
    };
    let pool = after_device(&[&Dpd::default(), &Dvp::default(), &element, &again]);
    let of_element = |rule, item| fault(5, rule, item, 20, 40);
    let of_again = |rule, item| fault(6, rule, item, 65_535, 50);
    let expected = [
        of_element(2, 1),
        of_element(4, 1),
        of_element(5, 1),
        of_element(5, 2),
        of_element(6, 3),
        of_element(7, 1),
        of_element(7, 4),
        of_element(12, 5),
        of_again(1, 1),
        of_again(5, 2),
        of_again(6, 1),
        of_again(8, 1),
    ];
    assert_eq!(all_faults(&pool), expected);
}

#[test]
fn elements_of_an_endless_chain_name_their_own_parents() {
    let element = |id, parent| Det {
        id,
        number: id,
        parent,
        ..Det::default()
    };
    let pool = after_device(&[&element(2, 4), &element(3, 2), &element(4, 3)]);
    let expected = [
        fault(3, 9, 1, 2, 4),
        fault(4, 9, 1, 3, 2),
        fault(5, 9, 1, 4, 3),
    ];
    assert_eq!(all_faults(&pool), expected);
}

#[test]
fn faults_of_the_other_kinds_have_65535_for_a_parent() {
    let device = Dvc {
        id: 8,
        texts: [b"\xFF", b"", b"\xFF"],
        structure: [255, 1, 1, 1, 1, 1, 1],
        ..Dvc::default()
    };
    let data = Dpd {
        properties: 8,
        designator: b"\xFF",
        presentation: 40,
        ..Dpd::default()
    };
    let property = Dpt {
        designator: b"\xFF",
        presentation: 20,
        ..Dpt::default()
    };
    let presentation = Dvp {
        id: 41,
        decimals: 8,
        unit: b"\xFF",
        ..Dvp::default()
    };
    let expected = [
        fault(3, 1, 1, 8, 65_535),
        fault(3, 3, 1, 8, 65_535),
        fault(3, 4, 1, 8, 65_535),
        fault(3, 4, 3, 8, 65_535),
        fault(3, 5, 1, 8, 65_535),
        fault(4, 4, 1, 20, 65_535),
        fault(4, 5, 1, 20, 65_535),
        fault(4, 6, 1, 20, 65_535),
        fault(5, 4, 1, 30, 65_535),
        fault(5, 7, 1, 30, 65_535),
        fault(6, 4, 1, 41, 65_535),
        fault(6, 5, 2, 41, 65_535),
    ];
    let pool = after_device(&[&device, &data, &property, &presentation]);
    assert_eq!(all_faults(&pool), expected);
}

#[test]
fn faults_of_the_whole_pool_name_no_object() {
    let expected = [
        fault(0, 10, 1, 65_535, 65_535),
        fault(0, 11, 1, 65_535, 65_535),
    ];
    assert_eq!(all_faults(&pool(&[&Dpd::default()])), expected);
    let expected = [
        fault(0, 10, 1, 65_535, 65_535),
        fault(0, 11, 1, 65_535, 65_535),
        fault(1, 6, 1, 1, 0),
    ];
    assert_eq!(all_faults(&pool(&[&Det::default()])), expected);
}

#[test]
fn a_bad_id_is_told_as_it_is() {
    let cases: [(&dyn Bytes, &[Fault]); 6] = [
        (
            &Det {
                id: 0,
                number: 1,
                parent: 1,
                ..Det::default()
            },
            &[fault(3, 1, 1, 0, 1), fault(3, 2, 1, 0, 1)],
        ),
        (
            &Det {
                id: 65_535,
                number: 1,
                parent: 1,
                ..Det::default()
            },
            &[fault(3, 1, 1, 65_535, 1)],
        ),
        (
            &Dvc {
                id: 0x0102,
                ..Dvc::default()
            },
            &[fault(3, 1, 1, 258, 65_535), fault(3, 3, 1, 258, 65_535)],
        ),
        (
            &Dpd {
                id: 0,
                ..Dpd::default()
            },
            &[fault(3, 1, 1, 0, 65_535), fault(3, 2, 1, 0, 65_535)],
        ),
        (
            &Dpt {
                id: 1,
                ..Dpt::default()
            },
            &[fault(3, 2, 1, 1, 65_535)],
        ),
        (
            &Dvp {
                id: 65_535,
                ..Dvp::default()
            },
            &[fault(3, 1, 1, 65_535, 65_535)],
        ),
    ];
    for (record, expected) in cases {
        assert_eq!(all_faults(&after_device(&[record])), expected);
    }
}

#[test]
fn a_short_buffer_has_the_first_faults_whole() {
    let element = Det {
        element_type: 3,
        parent: 7,
        entries: &[20, 8, 20],
        ..Det::default()
    };
    let data = Dpd {
        triggers: 32,
        ..Dpd::default()
    };
    let pool = pool(&[&element, &data]);
    let all = [
        fault(0, 10, 1, 65_535, 65_535),
        fault(0, 11, 1, 65_535, 65_535),
        fault(1, 6, 1, 1, 7),
        fault(1, 6, 3, 1, 7),
        fault(1, 12, 4, 1, 7),
        fault(2, 5, 3, 20, 65_535),
    ];
    let untouched = fault(0xA5A5, 0x5A, 0xC3C3, 0x3C3C, 0x9696);
    for fit in 0..=all.len() + 2 {
        let mut buffer = vec![untouched; fit];
        let count = check(&pool, &mut table_for(&pool), &mut buffer);
        assert_eq!(count, Ok(all.len()));
        let written = fit.min(all.len());
        assert_eq!(buffer[..written], all[..written]);
        assert!(buffer[written..].iter().all(|it| *it == untouched));
    }
}

#[test]
fn a_fault_has_the_numbers_of_its_table_entry() {
    let mut parent_1 = pool_p();
    parent_1[40] = 1;
    for pool in [pool_q()[..59].to_vec(), pool_p()[..31].to_vec(), parent_1] {
        let mut table = table_for(&pool);
        let mut buffer = [Fault::default(); 1];
        assert_eq!(check(&pool, &mut table, &mut buffer), Ok(1));
        let [found] = buffer;
        let expected = match usize::from(found.record).checked_sub(1) {
            Some(index) => (table[index].id, table[index].parent),
            None => (65_535, 65_535),
        };
        assert_eq!((found.id, found.parent), expected);
    }
}
