//! Commands judged by a pool.

use crate::pools::{after_device, pool_of_all_kinds, pool_p, pool_q, table_for, Det, Dpd, Dpt};
use second::{judge, read_pool, Kind, Record};

const UNTOUCHED: Record = Record {
    start: 0xA5A5,
    length: 0x5A5A,
    kind: Kind::Dvp,
    id: 0xC3C3,
    parent: 0x3C3C,
};

/// The judgement of a command to an element and a DDI, with its value.
fn judged(pool: &[u8], command: u32, element: u32, ddi: u16, value: i32) -> Result<u8, u8> {
    judge(pool, &mut table_for(pool), command, element, ddi, value)
}

/// A pool whose element 7 has DDI 141 with these properties and triggers.
fn pool_with(properties: u8, triggers: u8) -> Vec<u8> {
    let element = Det {
        id: 2,
        number: 7,
        parent: 1,
        entries: &[30, 20],
        ..Det::default()
    };
    let data = Dpd {
        properties,
        triggers,
        ..Dpd::default()
    };
    after_device(&[&element, &data, &Dpt::default()])
}

#[test]
fn the_worked_commands_are_judged() {
    for (command, error) in [(3, 0x10), (4, 0), (5, 0x08)] {
        assert_eq!(judged(&pool_q(), command, 1, 141, 1_000), Ok(error));
    }
}

#[test]
fn the_first_match_decides() {
    let pool = pool_q();
    for command in [
        0,
        1,
        9,
        11,
        12,
        13,
        14,
        15,
        16,
        18,
        255,
        259,
        65_539,
        1 << 31,
    ] {
        assert_eq!(judged(&pool, command, 9, 9, -1), Ok(0x01));
        assert_eq!(judged(&pool, command, 1, 141, 0), Ok(0x01));
    }
    for command in [2, 3, 4, 5, 6, 7, 8, 10] {
        assert_eq!(judged(&pool, command, 2, 9, -1), Ok(0x02));
        assert_eq!(judged(&pool, command, 4_095, 141, -1), Ok(0x02));
        assert_eq!(judged(&pool, command, 1, 140, -1), Ok(0x04));
        // Element 0 is above element 1, whose list it does not inherit.
        assert_eq!(judged(&pool, command, 0, 141, -1), Ok(0x04));
    }
    assert_eq!(judged(&pool, 4, 1, 141, -1), Ok(0x20));
    assert_eq!(judged(&pool, 5, 1, 141, -1), Ok(0x08));
}

#[test]
fn every_property_and_trigger_is_judged() {
    for properties in 0..6_u8 {
        for triggers in 0..32_u8 {
            let pool = pool_with(properties, triggers);
            let settable = properties / 2 % 2 == 1;
            let set = |bit: u32| triggers / 2_u8.pow(bit) % 2 == 1;
            for value in [i32::MIN, -1, 0, 1, i32::MAX] {
                let expect = |command: u32, error: u8| {
                    assert_eq!(judged(&pool, command, 7, 141, value), Ok(error));
                };
                let interval = if value < 0 { 0x20 } else { 0 };
                expect(2, 0);
                expect(3, if settable { 0 } else { 0x10 });
                expect(10, if settable { 0 } else { 0x10 });
                expect(4, if set(0) { interval } else { 0x08 });
                expect(5, if set(1) { interval } else { 0x08 });
                expect(6, if set(2) { 0 } else { 0x08 });
                expect(7, if set(2) { 0 } else { 0x08 });
                expect(8, if set(3) { 0 } else { 0x08 });
            }
        }
    }
}

#[test]
fn a_property_is_never_settable_and_has_no_trigger() {
    let pool = pool_of_all_kinds();
    for element in [0, 1] {
        for (command, error) in [
            (2, 0),
            (3, 0x10),
            (4, 0x08),
            (5, 0x08),
            (6, 0x08),
            (7, 0x08),
            (8, 0x08),
            (10, 0x10),
        ] {
            assert_eq!(judged(&pool, command, element, 134, -1), Ok(error));
        }
    }
}

#[test]
fn an_element_over_4095_is_32_before_the_pool() {
    for pool in [vec![], pool_p(), pool_p()[..31].to_vec()] {
        for element in [4_096, 8_191, 65_535, 65_536, 65_554, 1 << 31] {
            let mut table = [UNTOUCHED; 3];
            assert_eq!(judge(&pool, &mut table, 0, element, 0, 0), Err(32));
            assert_eq!(table, [UNTOUCHED; 3]);
        }
    }
}

#[test]
fn a_pool_not_accepted_is_refused_before_the_command() {
    let behind_p = |tail: &[u8]| [&pool_p()[..], tail].concat();
    for (pool, number) in [
        (vec![], 1),
        (vec![0; 65_536], 2),
        (behind_p(b"XXX"), 3),
        (behind_p(b"D"), 4),
        (behind_p(b"DVC\0\0\x81"), 5),
        (pool_q(), 7),
    ] {
        let mut table = [UNTOUCHED; 2];
        assert_eq!(judge(&pool, &mut table, 0, 4_095, 0, 0), Err(number));
        assert_eq!(table, [UNTOUCHED; 2]);
    }
}

#[test]
fn the_table_is_filled_whenever_the_pool_is_read() {
    let mut faulty = pool_p();
    faulty[40] = 1;
    for (pool, expected) in [(pool_p(), Ok(0x01)), (faulty, Err(24))] {
        let (mut read, mut table) = ([UNTOUCHED; 3], [UNTOUCHED; 3]);
        read_pool(&pool, &mut read).unwrap();
        assert_eq!(judge(&pool, &mut table, 0, 0, 0, 0), expected);
        assert_eq!(table, read);
    }
}
