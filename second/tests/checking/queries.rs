//! Texts and labels.

use crate::pools::{faults, pool, pool_of_all_kinds, pool_p, pool_q, table_for, Det, Dvc};
use second::{labels, read_pool, text, Kind, Labels, Record};

const UNTOUCHED: Record = Record {
    start: 0xA5A5,
    length: 0x5A5A,
    kind: Kind::Dvp,
    id: 0xC3C3,
    parent: 0x3C3C,
};

#[test]
fn a_text_is_a_part_of_the_pool() {
    let pool = pool_of_all_kinds();
    assert!(faults(&pool).is_empty());
    let cases: [(u32, &[u8]); 6] = [
        (0, b"Spr\xC3\xBChger"),
        (1, b"all"),
        (2, b""),
        (20, b"on"),
        (30, b"x"),
        (40, b"m\xC2\xB2"),
    ];
    for (id, expected) in cases {
        let found = text(&pool, &mut table_for(&pool), id).unwrap();
        assert_eq!(found, expected);
        assert!(pool.as_ptr_range().contains(&found.as_ptr()) || found.is_empty());
    }
}

#[test]
fn a_text_lies_where_its_record_has_it() {
    let pool = pool_of_all_kinds();
    let found = text(&pool, &mut table_for(&pool), 0).unwrap();
    assert!(std::ptr::eq(found, &pool[6..15]));
    let found = text(&pool, &mut table_for(&pool), 40).unwrap();
    assert!(std::ptr::eq(found, &pool[pool.len() - 3..]));
}

#[test]
fn an_id_that_no_record_has_is_28() {
    let pool = pool_q();
    for id in [4, 256, 65_534, 65_535, 65_536, 65_537, 1 << 31] {
        assert_eq!(text(&pool, &mut table_for(&pool), id), Err(28));
    }
}

#[test]
fn labels_with_an_extended_label_of_each_length() {
    for length in 0..=32 {
        let extended: Vec<u8> = (1..=length).map(|byte| byte * 7).collect();
        let device = Dvc {
            texts: [b"x", b"yz", b"abc"],
            structure: *b"1234567",
            extended: &extended,
            ..Dvc::default()
        };
        let pool = pool(&[&Det::root(), &device]);
        let mut expected = Labels {
            structure: *b"1234567",
            localization: *b"en\0\0\0\0\xFF",
            extended: [0; 32],
            extended_len: extended.len(),
        };
        expected.extended[..extended.len()].copy_from_slice(&extended);
        assert_eq!(labels(&pool, &mut table_for(&pool)), Ok(expected));
    }
}

/// Asserts that both queries are refused, and gives the table of two entries
/// that they leave.
fn refusals(pool: &[u8], expected: u8) -> [Record; 2] {
    let mut tables = [[UNTOUCHED; 2]; 2];
    assert_eq!(text(pool, &mut tables[0], 0), Err(expected));
    assert_eq!(labels(pool, &mut tables[1]), Err(expected));
    assert_eq!(tables[0], tables[1]);
    tables[0]
}

#[test]
fn pools_that_are_not_read_leave_the_table() {
    let behind_p = |tail: &[u8]| [&pool_p()[..], tail].concat();
    for (pool, number) in [
        (vec![], 1),
        (vec![0; 65_536], 2),
        (behind_p(b"XXX"), 3),
        (behind_p(b"D"), 4),
        (behind_p(b"DVC\0\0\x81"), 5),
        (pool_q(), 7),
    ] {
        assert_eq!(refusals(&pool, number), [UNTOUCHED; 2]);
    }
}

#[test]
fn a_pool_with_faults_is_24_and_fills_the_table() {
    let mut pool = pool_p();
    pool[40] = 1;
    let mut read = [UNTOUCHED; 2];
    read_pool(&pool, &mut read).unwrap();
    assert_eq!(refusals(&pool, 24), read);
    assert_eq!(refusals(&pool[..31], 24), [read[0], UNTOUCHED]);
}

#[test]
fn a_fault_is_told_before_an_unknown_id() {
    let mut pool = pool_p();
    pool[40] = 1;
    assert_eq!(text(&pool, &mut table_for(&pool), 9), Err(24));
}

#[test]
fn an_answer_and_an_unknown_id_fill_the_table() {
    let pool = pool_p();
    let mut read = [UNTOUCHED; 3];
    read_pool(&pool, &mut read).unwrap();
    for id in [0, 1, 9] {
        let mut table = [UNTOUCHED; 3];
        assert_eq!(text(&pool, &mut table, id).is_ok(), id != 9);
        assert_eq!(table, read);
    }
    let mut table = [UNTOUCHED; 3];
    assert!(labels(&pool, &mut table).is_ok());
    assert_eq!(table, read);
}
