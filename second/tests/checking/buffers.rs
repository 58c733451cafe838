//! Lent memory: what is written and what stays as it was.

use crate::pools::{after_device, all_faults, faults, pool, pool_p, pool_q, table_for, Det, Dpd};
use second::{check, read_pool, Fault, Kind, Record, Refusal};

/// Entries that were never written.
const UNTOUCHED: Fault = Fault {
    record: 0xA5A5,
    rule: 0x5A,
    item: 0xC3C3,
    id: 0x3C3C,
    parent: 0x9696,
};
const UNTOUCHED_RECORD: Record = Record {
    start: 0xA5A5,
    length: 0x5A5A,
    kind: Kind::Dvp,
    id: 0xC3C3,
    parent: 0x3C3C,
};

/// A pool with faults of several records and rules, record 0 first.
fn faulty_pool() -> Vec<u8> {
    let element = Det {
        element_type: 2,
        parent: 20,
        entries: &[9, 20, 20, 9],
        ..Det::default()
    };
    let data = Dpd {
        triggers: 0xFF,
        ..Dpd::default()
    };
    pool(&[&element, &data, &data])
}

#[test]
fn the_first_faults_are_written_and_the_rest_of_the_buffer_stays() {
    let pool = faulty_pool();
    let expected = all_faults(&pool);
    let count = expected.len();
    for fit in [0, 1, 2, count - 1, count, count + 1, count + 100] {
        let mut buffer = vec![UNTOUCHED; fit];
        assert_eq!(check(&pool, &mut table_for(&pool), &mut buffer), Ok(count));
        let written = fit.min(count);
        assert_eq!(buffer[..written], expected[..written]);
        assert!(buffer[written..].iter().all(|fault| *fault == UNTOUCHED));
    }
}

#[test]
fn the_faults_of_the_whole_pool_come_first() {
    let expected = [
        (0, 10, 1),
        (0, 11, 1),
        (1, 6, 2),
        (1, 6, 5),
        (1, 7, 1),
        (1, 12, 4),
        (2, 5, 3),
        (3, 2, 1),
        (3, 5, 3),
    ];
    assert_eq!(faults(&faulty_pool()), expected);
}

#[test]
fn an_accepted_pool_leaves_the_buffer() {
    let mut buffer = [UNTOUCHED; 3];
    let pool = pool_q();
    assert_eq!(check(&pool, &mut table_for(&pool), &mut buffer), Ok(0));
    assert_eq!(buffer, [UNTOUCHED; 3]);
}

#[test]
fn the_table_is_filled_as_reading_fills_it() {
    for pool in [pool_q(), faulty_pool(), pool_p()] {
        let mut read = [UNTOUCHED_RECORD; 6];
        let mut checked = [UNTOUCHED_RECORD; 6];
        let count = read_pool(&pool, &mut read).unwrap();
        check(&pool, &mut checked, &mut []).unwrap();
        assert_eq!(checked, read);
        assert_eq!(checked[count..], [UNTOUCHED_RECORD; 6][count..]);
    }
}

#[test]
fn a_table_of_just_the_records_is_enough() {
    assert_eq!(check(&pool_q(), &mut [UNTOUCHED_RECORD; 4], &mut []), Ok(0));
}

/// Asserts that checking refuses as reading does and changes nothing.
fn assert_refused(pool: &[u8], entries: usize, number: u8, place: usize) {
    let mut table = vec![UNTOUCHED_RECORD; entries];
    let mut buffer = [UNTOUCHED; 3];
    let refusal = Refusal { number, place };
    assert_eq!(read_pool(pool, &mut table), Err(refusal));
    assert_eq!(check(pool, &mut table, &mut buffer), Err(refusal));
    assert_eq!(table, vec![UNTOUCHED_RECORD; entries]);
    assert_eq!(buffer, [UNTOUCHED; 3]);
}

#[test]
fn a_refusal_changes_neither_table_nor_buffer() {
    let faulty = faulty_pool();
    let behind = |tail: &[u8]| [&faulty[..], tail].concat();
    let end = faulty.len();
    assert_refused(&[], 9, 1, 0);
    assert_refused(&[0; 65_536], 9, 2, 0);
    assert_refused(&behind(b"XXX"), 9, 3, end);
    assert_refused(&behind(b"DV"), 9, 4, end);
    assert_refused(&behind(b"DVC\0\0\x81"), 9, 5, end + 5);
    assert_refused(&faulty, 2, 7, 3);
    assert_refused(&faulty, 0, 7, 3);
}

#[test]
fn the_most_records_are_checked() {
    let count = 5_457;
    let mut pool = after_device(&[]);
    for id in 0..count {
        let data = Dpd {
            id: 2 + id,
            ..Dpd::default()
        };
        pool.extend(crate::pools::Bytes::bytes(&data));
    }
    assert!(pool.len() > 65_535 - 12 && pool.len() <= 65_535);
    assert!(faults(&pool).is_empty());
    // Now the last two IDs are the same.
    let at = pool.len() - 12 + 3;
    pool[at] -= 1;
    assert_eq!(faults(&pool), [(count + 2, 2, 1)]);
}
