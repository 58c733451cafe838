//! The worked lines that are about checking.

use crate::pools::{faults, pool_p, pool_q};
use second::{check, list, Fault, Record, Refusal};

const NO_FAULTS: [(u16, u8, u16); 0] = [];

fn refusal(pool: &[u8]) -> Option<(u8, usize)> {
    let mut table = [Record::default(); 8];
    let Err(Refusal { number, place }) = check(pool, &mut table, &mut [Fault::default(); 8]) else {
        return None;
    };
    Some((number, place))
}

/// The fault lines that the lister prints.
fn fault_lines(pool: &[u8]) -> Vec<String> {
    let output = list(pool);
    let lines = output.lines().filter(|line| line.starts_with("fault"));
    lines.map(str::to_owned).collect()
}

#[test]
fn the_pools_are_as_long_as_they_should_be() {
    assert_eq!((pool_p().len(), pool_q().len()), (44, 71));
}

#[test]
fn an_empty_pool_is_1() {
    assert_eq!(refusal(&[]), Some((1, 0)));
}

#[test]
fn p_and_q_have_no_fault() {
    assert_eq!(faults(&pool_p()), NO_FAULTS);
    assert_eq!(faults(&pool_q()), NO_FAULTS);
}

#[test]
fn the_device_alone_lacks_an_element_of_type_1() {
    let pool = &pool_p()[..31];
    assert_eq!(faults(pool), [(0, 11, 1)]);
    assert_eq!(fault_lines(pool), ["fault 0 11 1 65535 65535"]);
}

#[test]
fn without_its_process_data_the_entry_of_q_names_nothing() {
    let pool = &pool_q()[..59];
    assert_eq!(faults(pool), [(3, 6, 2)]);
    assert_eq!(fault_lines(pool), ["fault 3 6 2 2 1"]);
}

#[test]
fn q_cut_by_a_byte_is_4_at_its_last_record() {
    assert_eq!(refusal(&pool_q()[..70]), Some((4, 59)));
}

#[test]
fn an_element_that_is_its_own_parent_never_ends() {
    let mut pool = pool_p();
    pool[40] = 1;
    assert_eq!(faults(&pool), [(2, 9, 1)]);
    assert_eq!(fault_lines(&pool), ["fault 2 9 1 1 1"]);
}

#[test]
fn a_designator_of_128_bytes_is_a_fault_and_129_a_refusal() {
    let mut pool = pool_p();
    pool[5] = 128;
    pool.splice(6..6, [b'a'; 128]);
    assert_eq!(faults(&pool), [(1, 4, 1)]);
    assert_eq!(fault_lines(&pool), ["fault 1 4 1 0 65535"]);
    pool[5] = 129;
    assert_eq!(refusal(&pool), Some((5, 5)));
}
