//! Inputs to start from: the vectors and worked lines, pools of every kind of
//! breach and some without a fault, and calls of each other group.

use crate::sessions::VALUE_ARGUMENTS;
use crate::Group;
use compare::accepted;
use compare::breaches::{breach_in_way, WAYS};
use compare::fixed::{pool_p, pool_q};
use compare::library::FAULT_WORDS;
use compare::objects::{pool_of, GREATEST_SCALE, LEAST_SCALE};
use compare::random::Random;
use compare::vectors;
use std::io;

const SEED: u64 = 11783;
/// Longer pools are not used as seeds: a fuzzer works best on short inputs.
const LONGEST_POOL: usize = 1_000;
/// Pools that are shorter are sent in sessions.
const SHORT_POOL: usize = 200;
const ACCEPTED: u64 = 40;

/// Long tables, chains, rings and lists, made by filling records: their size,
/// their ways and their first ID.
const FILLINGS: [[u8; 4]; 10] = [
    [203, 0, 10, 0],
    [212, 0, 10, 0],
    [233, 0, 10, 0],
    [255, 0, 10, 0],
    [221, 2, 10, 0],
    [211, 2 | 4, 10, 0],
    [221, 8, 10, 0],
    [221, 8, 0x30, 0x75],
    [197, 16, 255, 255],
    [197, 32, 9, 0],
];

/// Session calls.
const OFFER: u8 = 0;
const TRANSFER: u8 = 1;
const TRANSFER_REST: u8 = 2;
const ACTIVATE: u8 = 4;
const DEACTIVATE: u8 = 5;
const LOST: u8 = 7;

pub fn seeds() -> io::Result<Vec<Vec<u8>>> {
    let pools = pools()?;
    let log = vectors::load_bytes("log-000-d49.hex")?;
    let mut seeds: Vec<Vec<u8>> = pools.iter().map(|pool| asked(pool, [0; 4])).collect();
    seeds.extend(FILLINGS.map(|filling| asked(&pool_q(), filling)));
    seeds.extend(asked_wide(&pool_q()));
    seeds.extend(short_buffers(&pool_q()[..59]));
    for pool in pools.iter().filter(|pool| pool.len() < SHORT_POOL) {
        seeds.push(sent(pool));
        seeds.push(on_value(pool, |value| value[17] = ACTIVATE));
    }
    seeds.extend(short_areas());
    seeds.extend(messages());
    seeds.extend(displayed());
    for layout in [0x0F, 0x1FF, 0, 0x155] {
        let [low, high] = u16::to_le_bytes(layout);
        let header = [0, low, high, 20, 0, 0, 0, 0, 0];
        seeds.push(input(Group::Log, &header[..7], &log));
        seeds.push(input(Group::Log, &header[..7], &[0; 80]));
        // The fields and three pairs.
        seeds.push(input(Group::Written, &header, &[0; 30 + 15]));
    }
    // A layout and decimals that are in range without their upper bits.
    seeds.push(input(Group::Log, &[1, 0x0B, 0, 20, 0, 0, 0], &log));
    seeds.push(input(Group::Written, &[1, 0x0B, 0, 20], &[0; 49]));
    for text in ["Spritze", "Lachsbrille äöü", "€ 🌾"] {
        seeds.push(input(Group::Text, &[], text.as_bytes()));
    }
    Ok(seeds)
}

/// Command 4 for element 1 and DDI 141, which Q takes, and the text of ID 1.
fn asked(pool: &[u8], filling: [u8; 4]) -> Vec<u8> {
    let asked = [1, 0, 4, 1, 0, 141, 0, 1, 0, 0, 0];
    input(Group::Pool, &[&[0; 3], &filling[..], &asked].concat(), pool)
}

/// The text of ID 65536, command 259 and element 65537: in range without their
/// upper bits.
fn asked_wide(pool: &[u8]) -> [Vec<u8>; 3] {
    [1, 1 << 2, 1 << 4].map(|wide| {
        let mut input = asked(pool, [0; 4]);
        input[1] = wide;
        input
    })
}

/// Fault buffers that end inside the last fault, at each of its words.
fn short_buffers(pool: &[u8]) -> impl Iterator<Item = Vec<u8>> + '_ {
    (1..=FAULT_WORDS).map(|words| {
        let mut input = asked(pool, [0; 4]);
        input[3] = (words as u8).wrapping_neg();
        input
    })
}

/// A pool that is offered, sent and activated, with refusals in between.
fn sent(pool: &[u8]) -> Vec<u8> {
    let calls = [
        [OFFER, 0, 0, 0],
        [TRANSFER, 7, 0, 0],
        [ACTIVATE, 0, 0, 0],
        [TRANSFER_REST, 0, 0, 0],
        [ACTIVATE, 0, 0, 0],
        [DEACTIVATE, 0, 0, 0],
        [LOST, 0, 0, 0],
        [ACTIVATE, 0, 0, 0],
    ];
    let arguments = [&[0, 0, calls.len() as u8], &calls.concat()[..]].concat();
    input(Group::Session, &arguments, pool)
}

/// A call on a value whose pool has arrived, with a change.
fn on_value(pool: &[u8], change: impl Fn(&mut [u8; VALUE_ARGUMENTS])) -> Vec<u8> {
    let mut value = [0; VALUE_ARGUMENTS];
    let length = (pool.len() as u32).to_le_bytes();
    value[0] = 1;
    value[2..6].copy_from_slice(&length);
    value[6..10].copy_from_slice(&length);
    change(&mut value);
    input(Group::Value, &value, pool)
}

/// Areas that are a byte too short for what they are to take or to hold.
fn short_areas() -> [Vec<u8>; 3] {
    let pool = pool_p();
    [
        on_value(&pool, |value| {
            value[6] -= 1;
            value[15] = 255;
            value[17] = TRANSFER_REST;
        }),
        on_value(&pool, |value| {
            value[16] = 255;
            value[17] = ACTIVATE;
        }),
        on_value(&pool, |value| {
            value[..10].fill(0);
            value[10] = 44;
            value[16] = 255;
            value[17] = ACTIVATE;
        }),
    ]
}

fn messages() -> [Vec<u8>; 5] {
    let written = b"\0\x08\x03\x12\0\x8D\0\xFF\xFF\xFF\xFF\x11\x03";
    let value = b"\x23\x01\x8D\0\xFF\xFF\xFF\xFF";
    let acknowledge = b"\x2D\x01\x8D\0\x10\xF3\xFF\xFF";
    let wide = |bits: u8| {
        let mut arguments = *written;
        arguments[0] = bits;
        input(Group::Message, &arguments, value)
    };
    [
        input(Group::Message, written, value),
        input(Group::Message, written, acknowledge),
        wide(1),
        wide(1 << 2),
        wide(1 << 4),
    ]
}

/// Displayed values by scales on both sides of each limit and by a NaN.
fn displayed() -> Vec<Vec<u8>> {
    let half = 0.5_f32.to_bits();
    let scales = [
        (half, 2),
        (half, 8),
        (LEAST_SCALE - 1, 0),
        (LEAST_SCALE, 0),
        (GREATEST_SCALE, 7),
        (GREATEST_SCALE + 1, 7),
        (f32::NAN.to_bits(), 0),
    ];
    let one = |(scale, decimals): (u32, u8)| {
        let numbers = [100_i32.to_le_bytes(), (-20_i32).to_le_bytes()];
        let value = [&[0], &numbers.concat()[..], &scale.to_le_bytes()].concat();
        input(Group::Displayed, &value, &[decimals])
    };
    let mut seeds = scales.map(one).to_vec();
    // 258 decimals, of which the lowest eight bits are in range.
    seeds.push(seeds[0].clone());
    seeds[scales.len()][1] = 1;
    seeds
}

fn pools() -> io::Result<Vec<Vec<u8>>> {
    let mut pools = vec![pool_p(), pool_q()];
    pools.extend(vectors::load()?.into_iter().map(|vector| vector.pool));
    for way in 0..WAYS {
        let random = &mut Random::for_item(SEED, way as u64);
        let mut objects = accepted::objects(random);
        while pool_of(&objects).len() > LONGEST_POOL {
            objects = accepted::objects(random);
        }
        breach_in_way(way, random, &mut objects);
        pools.push(pool_of(&objects));
    }
    for index in 0..ACCEPTED {
        let random = &mut Random::for_item(SEED ^ 0xF022, index);
        pools.push(pool_of(&accepted::objects(random)));
    }
    pools.retain(|pool| pool.len() <= LONGEST_POOL);
    Ok(pools)
}

fn input(group: Group, arguments: &[u8], bytes: &[u8]) -> Vec<u8> {
    [&[group as u8], arguments, bytes].concat()
}

#[cfg(test)]
mod tests {
    use super::*;
    use crate::GROUPS;

    #[test]
    fn every_group_has_a_seed() {
        let seeds = seeds().unwrap();
        for group in GROUPS {
            assert!(seeds.iter().any(|seed| Group::of(seed) == group));
        }
    }
}
