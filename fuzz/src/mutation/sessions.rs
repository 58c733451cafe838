//! Changes to the calls of a list.

use crate::pool_at;
use crate::sessions::{CALL_BYTES, LIST_START, MOST_CALLS};
use compare::random::Random;

/// Where the calls begin: after the group and the list's first bytes, the last
/// of which is the count of calls.
const CALLS_AT: usize = 1 + LIST_START;
const COUNT_AT: usize = LIST_START;
/// Calls that lead further: the whole pool offered, all of it or a part sent,
/// activated with a table that just suffices or is too short.
const CALLS: [[u8; CALL_BYTES]; 11] = [
    [0, 0, 0, 0],
    [0, 0xFF, 0xFF, 0],
    [2, 0, 0, 0],
    [2, 0, 0, 0],
    [1, 7, 0, 0],
    [4, 0, 0, 0],
    [4, 0, 0, 0],
    [4, 0, 0, 0xFF],
    [5, 0, 0, 0],
    [6, 0, 0, 0],
    [7, 0, 0, 0],
];

pub fn mutate(random: &mut Random, input: &mut Vec<u8>) -> bool {
    let Some(end) = pool_at(input) else {
        return false;
    };
    let count = (end - CALLS_AT) / CALL_BYTES;
    let place = |index: usize| CALLS_AT + CALL_BYTES * index;
    let at = place(random.below(count + 1));
    if count > 0 && random.one_in(4) {
        let at = place(random.below(count));
        input.drain(at..at + CALL_BYTES);
        input[COUNT_AT] = count as u8 - 1;
    } else if count < MOST_CALLS {
        input.splice(at..at, random.pick(&CALLS));
        input[COUNT_AT] = count as u8 + 1;
    }
    true
}
