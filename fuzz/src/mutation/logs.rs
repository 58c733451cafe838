//! Changes to log records, as bytes to be read or as fields to be written.

use super::put;
use crate::logs::{count_at, ARGUMENTS};
use compare::random::Random;

const WIDE_AT: usize = 1;
const LAYOUT_AT: usize = 2;
const LOGGED_AT: usize = 4;
/// The record's first byte in an input that is read.
const RECORD_AT: usize = 1 + ARGUMENTS;
const PAIR_BYTES: usize = 5;
/// The first byte of the fields in an input that is written, and of the pairs.
const FIELDS_AT: usize = 10;
const PAIRS_AT: usize = FIELDS_AT + 30;
/// One change in this many is to the upper bits of the layout.
const WIDE_ONE_IN: usize = 40;
const TIMES: [i32; 4] = [0, 86_399_999, 86_400_000, -1];
const PLACES: [i32; 8] = [
    900_000_000,
    900_000_001,
    -900_000_000,
    -900_000_001,
    1_800_000_000,
    1_800_000_001,
    -1_800_000_000,
    -1_800_000_001,
];

/// Changes a log to be read: one more record, a field at its limit, a mark more
/// or less with its bytes.
pub fn mutate_read(random: &mut Random, input: &mut Vec<u8>) -> bool {
    if input.len() < RECORD_AT {
        return false;
    }
    let layout = word(input, LAYOUT_AT);
    let count_at = RECORD_AT + count_at(layout.into());
    match random.below(8) {
        _ if random.one_in(WIDE_ONE_IN) => input[WIDE_AT] = random.below(4) as u8,
        0 => put(input, RECORD_AT, &random.pick(&TIMES).to_le_bytes()),
        1 => {
            let place = RECORD_AT + 6 + random.pick(&[0, 4]);
            put(input, place, &random.pick(&PLACES).to_le_bytes());
        }
        2 => put(input, LAYOUT_AT, &flipped(random, layout).to_le_bytes()),
        3 => {
            // A record of zeros after the others.
            let pairs = random.pick(&[0, 0, 1, 3, 17]);
            let start = input.len();
            input.resize(start + count_at - RECORD_AT, 0);
            input.push(pairs as u8);
            input.resize(input.len() + PAIR_BYTES * pairs, 0);
        }
        4 => {
            // One more pair in the first record.
            if let Some(&count @ ..=254) = input.get(count_at) {
                let ordinal = edge(random, word(input, LOGGED_AT));
                input[count_at] = count + 1;
                input.splice(count_at + 1..count_at + 1, [ordinal, 1, 2, 3, 4]);
            }
        }
        5 => {
            let count = input.get(count_at).map_or(0, |&it| usize::from(it));
            let ordinal = edge(random, word(input, LOGGED_AT));
            let place = count_at + 1 + PAIR_BYTES * random.below(count.max(1));
            put(input, place, &[ordinal]);
        }
        6 => drop(input.pop()),
        _ => put(input, LOGGED_AT, &header_count(random).to_le_bytes()),
    }
    true
}

/// Changes a record to be written.
pub fn mutate_written(random: &mut Random, input: &mut Vec<u8>) -> bool {
    if input.len() < PAIRS_AT {
        input.resize(PAIRS_AT, 0);
    }
    let layout = word(input, LAYOUT_AT);
    match random.below(8) {
        _ if random.one_in(WIDE_ONE_IN) => input[WIDE_AT] = random.below(4) as u8,
        0 => put(input, FIELDS_AT, &random.pick(&TIMES).to_le_bytes()),
        1 => {
            let place = FIELDS_AT + 6 + random.pick(&[0, 4]);
            put(input, place, &random.pick(&PLACES).to_le_bytes());
        }
        2 => put(input, LAYOUT_AT, &flipped(random, layout).to_le_bytes()),
        3 => input[FIELDS_AT + 18] = random.pick(&[8, 9, 13, 14, 15, 16]),
        4 => {
            let pairs = random.pick(&[1, 2, 16, 17]);
            let ordinal = edge(random, word(input, LOGGED_AT));
            input.extend([ordinal, 4, 3, 2, 1].repeat(pairs));
        }
        5 => {
            // The room, the count and the lists.
            let place = 6 + random.below(4);
            input[place] = random.pick(&[0, 0, 1, 2, 254, 255]);
        }
        6 => input.truncate(PAIRS_AT.max(input.len() - PAIR_BYTES)),
        _ => put(input, LOGGED_AT, &header_count(random).to_le_bytes()),
    }
    true
}

fn word(input: &[u8], at: usize) -> u16 {
    u16::from_le_bytes([input[at], input[at + 1]])
}

/// Mostly a layout that is not refused.
fn flipped(random: &mut Random, layout: u16) -> u16 {
    let bits = if random.one_in(20) { 16 } else { 9 };
    layout ^ 1 << random.below(bits)
}

fn header_count(random: &mut Random) -> u16 {
    let any = random.byte().into();
    random.pick(&[any, any, 0, 1, 255, 256, 0xFFFE, 0xFFFF])
}

/// An ordinal on either side of the header's count.
fn edge(random: &mut Random, logged: u16) -> u8 {
    let last = logged.wrapping_sub(1).min(255) as u8;
    random.pick(&[0, last, last, logged.min(255) as u8])
}
