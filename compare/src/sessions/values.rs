//! Single calls on values that do not come from earlier calls: values that can
//! arise, with areas of any lengths, and values that can't.

use super::call::Call;
use super::client::Sides;
use super::library::Value;
use super::lists::{lay, noise, pool, table_words};
use crate::random::Random;
use second::MAX_POOL_BYTES;

/// The greatest size of a pool, as a value has it.
const MOST: u32 = MAX_POOL_BYTES as u32;

/// The greatest length of most areas.
const LONG_AREA: usize = 2_000;
/// One value in this many may have longer areas.
const LONG_ONE_IN: usize = 100;
/// Ways to make a value that can't arise.
const WAYS: usize = 9;

/// A value with a call on it.
pub struct Single {
    pub value: Value,
    pub call: Call,
    pub sides: Sides,
}

/// The call of this index in the run of this seed, every other one on a value
/// that can't arise.
pub fn single(seed: u64, index: u64) -> Single {
    let random = &mut Random::for_item(seed ^ 0x7A1E, index);
    let (mut value, pool) = possible(random);
    if index.is_multiple_of(2) {
        for _ in 0..random.pick(&[1, 1, 1, 1, 2, 3]) {
            spoil(random, &mut value);
        }
    }
    let long = random.one_in(LONG_ONE_IN);
    let staging = area_length(random, &value, long);
    let kept = area_length(random, &value, long);
    let mut staging = noise(random, staging);
    let mut kept = noise(random, kept);
    lay(&mut staging, &pool);
    if random.one_in(3) {
        lay(&mut kept, &pool);
    }
    let call = call(random, &value, &staging, &kept);
    let sides = Sides::new(&staging, &kept);
    Single { value, call, sides }
}

/// A value that can arise, often one whose offered pool has arrived in full.
fn possible(random: &mut Random) -> (Value, Vec<u8>) {
    let pool = pool(random);
    let mut value = Value::default();
    if random.below(10) < 7 {
        let any = between(random, 1, MOST);
        let length = pool.len().clamp(1, MAX_POOL_BYTES) as u32;
        value.stage = 1;
        value.announced = random.pick(&[length, length, length, length, any, 1, MOST]);
        let some = between(random, 0, value.announced);
        let all = value.announced;
        value.received = random.pick(&[all, all, all, all - 1, some, 0]);
    }
    if !random.one_in(3) {
        let some = between(random, 1, 300);
        let any = between(random, 1, MOST);
        value.kept = random.pick(&[some, some, some, any, 1, MOST]);
        value.active = random.below(2) as u16;
    }
    (value, pool)
}

fn between(random: &mut Random, low: u32, high: u32) -> u32 {
    random.between(low as usize, high as usize) as u32
}

/// Changes the value so that it can't arise. A number that is too large would
/// often be right without its upper bits.
fn spoil(random: &mut Random, value: &mut Value) {
    let way = random.below(WAYS);
    let upper = random.pick(&[1, 2, 1 << 8, 1 << 15]) * (MOST + 1);
    let too_large = |number: u32| number % (MOST + 1) + upper;
    match way {
        0 => value.stage = random.pick(&[2, 3, 256, 257, 32_768, 32_769, u16::MAX]),
        1 => value.active = random.pick(&[2, 3, 256, 257, 32_768, 32_769, u16::MAX]),
        2 => {
            value.stage = 1;
            value.announced = random.pick(&[upper, too_large(value.announced), u32::MAX]);
        }
        3 => value.kept = random.pick(&[upper, too_large(value.kept), u32::MAX]),
        4 => {
            value.stage = 1;
            value.announced = 0;
            value.received = 0;
        }
        5 => {
            value.stage = 1;
            value.announced = value.announced.max(1);
            let over = value.announced.saturating_add(random.pick(&[1, 1, 7]));
            value.received = random.pick(&[over, too_large(over), u32::MAX]);
        }
        6 => {
            value.active = 1;
            value.kept = 0;
        }
        7 => {
            value.stage = 0;
            value.announced = value.announced.max(1);
            value.received = random.pick(&[0, value.received]);
        }
        _ => {
            value.stage = 0;
            value.announced = 0;
            value.received = value.received.max(1);
        }
    }
}

/// A length around what the value needs, or any.
fn area_length(random: &mut Random, value: &Value, long: bool) -> usize {
    let longest = if long {
        MAX_POOL_BYTES + 100
    } else {
        LONG_AREA
    };
    let wanted = random.pick(&[value.announced, value.announced, value.kept]) as usize;
    let any = random.between(0, 300);
    let length = match random.below(12) {
        0 => 0,
        1 | 2 => wanted.saturating_sub(1),
        3 => random.between(0, wanted.min(longest)),
        4 => any,
        5 | 6 => wanted,
        _ => wanted.saturating_add(random.between(0, 60)),
    };
    length.min(longest)
}

fn call(random: &mut Random, value: &Value, staging: &[u8], kept: &[u8]) -> Call {
    match random.below(10) {
        0 | 1 => {
            let area = random.pick(&[staging.len(), kept.len()]);
            let any = random.between(0, area);
            let sizes = [area, area + 1, any, any, 0, MAX_POOL_BYTES + 1];
            Call::Offer(random.pick(&sizes))
        }
        2..=4 => {
            let rest = value.announced.wrapping_sub(value.received) as usize;
            let rest = rest.min(LONG_AREA);
            let any = random.between(0, rest);
            let length = random.pick(&[rest, rest + 1, any, any, 0, 1, 7]);
            Call::Transfer(noise(random, length))
        }
        5..=6 => {
            let length = (value.received as usize).min(staging.len());
            Call::Activate(table_words(random, &staging[..length]))
        }
        7 => Call::Deactivate,
        8 => Call::Delete,
        _ => Call::Lost,
    }
}
