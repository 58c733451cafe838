//! Changes to an input that keep its structure: bytes changed at random mostly
//! make a pool that is refused at once.

mod logs;
mod numbers;
mod pools;
mod sessions;
mod texts;

use crate::{pool_at, Group};
use compare::random::Random;

/// Changes the input, and tells whether it had a structure to follow.
pub fn mutate(random: &mut Random, input: &mut Vec<u8>) -> bool {
    match Group::of(input) {
        Group::Session if random.one_in(3) => sessions::mutate(random, input),
        Group::Pool | Group::Session | Group::Value => mutate_pool(random, input),
        Group::Log => logs::mutate_read(random, input),
        Group::Written => logs::mutate_written(random, input),
        Group::Text => texts::mutate(random, input),
        Group::Message => numbers::mutate_message(random, input),
        Group::Displayed => numbers::mutate_displayed(random, input),
    }
}

/// A new input of a group whose calls mostly take numbers. Few of these show
/// anything new to a fuzzer, so it would neglect the group.
pub fn fresh(random: &mut Random) -> Vec<u8> {
    let mut input = vec![random.pick(&[Group::Message, Group::Displayed]) as u8];
    for _ in 0..12 {
        mutate(random, &mut input);
    }
    input
}

/// Makes an input out of two of the same group: a pool with records of both.
pub fn cross(random: &mut Random, input: &[u8], other: &[u8]) -> Option<Vec<u8>> {
    let (at, other_at) = (pool_at(input)?, pool_at(other)?);
    let (arguments, pool) = input.split_at(at);
    let crossed = pools::cross(random, pool, &other[other_at..])?;
    Some([arguments, &crossed].concat())
}

fn mutate_pool(random: &mut Random, input: &mut Vec<u8>) -> bool {
    let Some(at) = pool_at(input) else {
        return false;
    };
    let pool = input.split_off(at);
    let changed = pools::mutate(random, input, &pool);
    input.extend(changed.as_deref().unwrap_or(&pool));
    changed.is_some()
}

/// Writes a number into a list of bytes, if the list is long enough.
fn put(bytes: &mut [u8], at: usize, number: &[u8]) {
    if let Some(place) = bytes.get_mut(at..at + number.len()) {
        place.copy_from_slice(number);
    }
}

#[cfg(test)]
mod tests {
    use super::*;
    use crate::seeds::seeds;

    /// Changes upon changes, as a fuzzer makes them.
    #[test]
    fn changed_inputs_are_compared_like_others() {
        const EACH: u64 = 200;
        let seeds = seeds().unwrap();
        for (index, seed) in seeds.iter().enumerate() {
            let random = &mut Random::for_item(11783, index as u64);
            let mut input = seed.clone();
            for _ in 0..EACH {
                let other = &seeds[random.below(seeds.len())];
                if random.one_in(10) {
                    input = cross(random, &input, other).unwrap_or(input);
                } else {
                    mutate(random, &mut input);
                }
                input.truncate(3_000);
            }
            assert_eq!(crate::compare(&input), Ok(()), "seed {index}");
        }
    }
}
