//! Changes to messages and to displayed values: these take few paths through
//! the library, so coverage alone leads to few inputs.

use super::put;
use compare::objects::{GREATEST_SCALE, LEAST_SCALE};
use compare::random::Random;

/// Bytes of an input, with the message to be read.
const MESSAGE: usize = 14 + 8;
const DISPLAYED: usize = 15;
const WIDE_AT: usize = 1;
const SCALE_AT: usize = 10;
const DECIMALS_AT: usize = 14;
const NUMBERS: [i32; 6] = [i32::MIN, -1, 0, 1, 1_000_001, i32::MAX];

pub fn mutate_message(random: &mut Random, input: &mut Vec<u8>) -> bool {
    input.resize(MESSAGE.max(input.len()), 0);
    let any = random.byte();
    match random.below(9) {
        0 => input[2] = random.pick(&[0, 7, 8, 9, any]),
        1 => input[3] = random.pick(&[any % 16, any % 16, 16, any]),
        2 => put(input, 4, &element(random).to_le_bytes()),
        3 => put(input, 8, &number(random).to_le_bytes()),
        4 => input[13] = random.pick(&[any % 16, 15, 16, any]),
        8 => input[WIDE_AT] = random.pick(&[0, 0, 0, 1, 1 << 2, 1 << 4, any]),
        5 => input.truncate(MESSAGE - random.below(3)),
        6 => input.push(any),
        _ => {
            let place = MESSAGE - 8 + random.below(8);
            input[place] = any;
        }
    }
    true
}

pub fn mutate_displayed(random: &mut Random, input: &mut Vec<u8>) -> bool {
    input.resize(DISPLAYED, 0);
    let between = random.between(LEAST_SCALE as usize, GREATEST_SCALE as usize) as u32;
    let edges = [
        LEAST_SCALE,
        GREATEST_SCALE,
        0x7F80_0000,
        0x7FC0_0000,
        1 << 31,
        0,
    ];
    let near = random
        .pick(&edges)
        .wrapping_add(random.pick(&[0, 0, 1, u32::MAX]));
    match random.below(5) {
        0 => put(input, 2, &number(random).to_le_bytes()),
        1 => put(input, 6, &number(random).to_le_bytes()),
        4 => input[WIDE_AT] = random.pick(&[0, 0, 0, 1, 2, 3]),
        2 => input[DECIMALS_AT] = random.pick(&[0, 7, 7, 8, 255]),
        _ => {
            let scale = random.pick(&[between, between, near]);
            put(input, SCALE_AT, &scale.to_le_bytes());
        }
    }
    true
}

fn number(random: &mut Random) -> i32 {
    let any = random.draw() as i32;
    let short = any >> random.below(32);
    let edge = random.pick(&NUMBERS);
    random.pick(&[any, short, edge])
}

fn element(random: &mut Random) -> u16 {
    let any = random.draw() as u16;
    random.pick(&[any, any % 4_096, 4_095, 4_096])
}
