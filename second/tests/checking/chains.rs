//! Rule 9: chains of parents.

use crate::pools::{faults, pool, Bytes, Det, Dpd, Dvc};

/// A device and device elements with these IDs and parents; the first element
/// is record 2 and the root.
fn elements(ids_and_parents: &[(u16, u16)]) -> Vec<u8> {
    let mut pool = pool(&[&Dvc::default()]);
    for (number, &(id, parent)) in (0..).zip(ids_and_parents) {
        let plain = match number {
            0 => Det::root(),
            _ => Det::default(),
        };
        let element = Det {
            id,
            number,
            parent,
            ..plain
        };
        pool.extend(element.bytes());
    }
    pool
}

/// The records whose chain never ends. Other faults are left out.
fn endless(pool: &[u8]) -> Vec<u16> {
    faults(pool)
        .into_iter()
        .filter(|&(_, rule, _)| rule == 9)
        .map(|(record, ..)| record)
        .collect()
}

/// Asserts that rule 9 is all that these elements breach.
fn assert_endless(ids_and_parents: &[(u16, u16)], records: &[u16]) {
    let expected: Vec<_> = records.iter().map(|&record| (record, 9, 1)).collect();
    assert_eq!(faults(&elements(ids_and_parents)), expected);
}

#[test]
fn a_chain_ends_at_the_device() {
    assert_endless(&[(1, 0), (2, 1), (3, 2), (4, 3)], &[]);
    assert_endless(&[(4, 3), (3, 2), (2, 1), (1, 0)], &[]);
    assert_endless(&[(3, 1), (1, 4), (2, 3), (4, 0)], &[]);
}

#[test]
fn an_element_that_is_its_own_parent_is_a_ring() {
    assert_endless(&[(1, 1)], &[2]);
    assert_endless(&[(1, 0), (2, 2), (3, 1)], &[3]);
}

#[test]
fn all_members_of_a_ring_never_end() {
    assert_endless(&[(1, 2), (2, 1)], &[2, 3]);
    assert_endless(&[(1, 0), (2, 4), (3, 2), (4, 3), (5, 1)], &[3, 4, 5]);
}

#[test]
fn tails_lead_into_a_ring_from_before_and_behind() {
    assert_endless(&[(1, 2), (2, 3), (3, 3), (4, 1), (5, 0)], &[2, 3, 4, 5]);
    assert_endless(&[(5, 4), (4, 1), (1, 2), (2, 1), (3, 5)], &[2, 3, 4, 5, 6]);
}

#[test]
fn two_rings_and_a_chain_that_ends() {
    let elements = [(1, 3), (2, 4), (3, 1), (4, 2), (5, 6), (6, 0), (7, 5)];
    assert_endless(&elements, &[2, 3, 4, 5]);
}

#[test]
fn a_chain_ends_where_the_parent_is_no_element() {
    // Nothing carries 9, and 65535 names nothing.
    let expected = [(3, 6, 1), (5, 6, 1)];
    let found = faults(&elements(&[(1, 2), (2, 9), (3, 4), (4, 65_535)]));
    assert_eq!(found, expected);
}

#[test]
fn a_chain_ends_at_a_parent_of_a_wrong_kind() {
    let mut pool = elements(&[(1, 2), (2, 20)]);
    pool.extend(Dpd::default().bytes());
    assert_eq!(faults(&pool), [(3, 7, 1)]);
}

#[test]
fn a_carrier_of_65535_is_not_reached_by_a_chain() {
    assert_eq!(endless(&elements(&[(65_535, 65_535)])), []);
}

#[test]
fn a_parent_names_the_first_carrier() {
    // Record 3 has the ID 1 too, but its parent 1 is record 2.
    assert_eq!(endless(&elements(&[(1, 0), (1, 1)])), []);
    assert_eq!(endless(&elements(&[(1, 1), (1, 0)])), [2]);
    assert_eq!(endless(&elements(&[(1, 2), (1, 0), (2, 1)])), [2, 4]);
    assert_eq!(endless(&elements(&[(1, 0), (1, 2), (2, 1)])), []);
    assert_eq!(endless(&elements(&[(1, 0), (2, 2), (1, 2)])), [3, 4]);
}

#[test]
fn the_longest_chains_and_the_longest_ring() {
    let count = 5_000;
    let down: Vec<_> = (1..=count).map(|id| (id, id - 1)).collect();
    let up: Vec<_> = down.iter().rev().copied().collect();
    let mut ring = down.clone();
    ring[0].1 = count;
    assert_eq!(endless(&elements(&down)), []);
    assert_eq!(endless(&elements(&up)), []);
    let all: Vec<u16> = (2..=count + 1).collect();
    assert_eq!(endless(&elements(&ring)), all);
}
