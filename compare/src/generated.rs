//! Seeded inputs.

use crate::accepted;
use crate::breaches::breach;
use crate::crowded;
use crate::input::{Class, Input, Known};
use crate::random::Random;
use crate::shape::{Pool, Shape, KINDS, SHORTEST_RECORD, TEXT_LIMIT};
use second::{Kind, MAX_POOL_BYTES};

/// The input of this index in the run of this seed.
pub fn input(seed: u64, index: u64) -> Input {
    let random = &mut Random::for_item(seed, index);
    let name = format!("seed {seed} index {index}");
    match random.below(100) {
        0..=49 => for_reading(random, name),
        50..=57 => accepted_input(random, name),
        58..=84 => breached(random, name),
        _ => Input::of_objects(Class::Crowded, name, crowded::objects(random)),
    }
}

/// Pools for reading, in which the fields that do not matter to it are random.
fn for_reading(random: &mut Random, name: String) -> Input {
    let (class, pool, known) = match random.below(100) {
        0..=30 => sound(random),
        31..=61 => (Class::Mutated, mutated(random), Known::Nothing),
        62..=98 => (Class::Hostile, hostile(random), Known::Nothing),
        _ => large(random),
    };
    Input::new(class, name, pool).knowing(known)
}

fn accepted_input(random: &mut Random, name: String) -> Input {
    let objects = accepted::objects(random);
    Input::of_objects(Class::Accepted, name, objects).knowing(Known::Breaches(Vec::new()))
}

/// An accepted pool with one or several changes that breach a rule.
fn breached(random: &mut Random, name: String) -> Input {
    let mut objects = accepted::objects(random);
    for _ in 1..random.pick(&[1, 1, 1, 1, 2, 3, 5, 12, 30]) {
        breach(random, &mut objects);
    }
    let known = breach(random, &mut objects);
    let input = Input::of_objects(Class::Breached, name, objects);
    if input.pool.len() <= MAX_POOL_BYTES {
        input.knowing(Known::Breach(known))
    } else {
        input
    }
}

fn sound(random: &mut Random) -> (Class, Vec<u8>, Known) {
    let pool = sound_pool(random, 1);
    let known = known_of(&pool);
    (Class::Sound, pool.bytes, known)
}

fn known_of(pool: &Pool) -> Known {
    if pool.bytes.len() <= MAX_POOL_BYTES {
        Known::Records(pool.records.clone())
    } else {
        Known::Nothing
    }
}

/// Mostly a few records, sometimes a few hundred.
fn sound_pool(random: &mut Random, fewest: usize) -> Pool {
    let most = random.pick(&[2, 6, 6, 6, 12, 12, 30, 100]);
    let longest_text = random.pick(&[0, 3, 20, 20, TEXT_LIMIT]);
    let most_entries = random.pick(&[0, 3, 10, 300]);
    let mut pool = Pool::default();
    for _ in 0..random.between(fewest, most) {
        pool.push(&Shape::sound(random, longest_text, most_entries), random);
    }
    pool
}

fn mutated(random: &mut Random) -> Vec<u8> {
    let mut pool = sound_pool(random, 1).bytes;
    for _ in 0..random.between(1, 4) {
        if !pool.is_empty() {
            mutate(random, &mut pool);
        }
    }
    pool
}

fn mutate(random: &mut Random, pool: &mut Vec<u8>) {
    let at = random.below(pool.len());
    match random.below(8) {
        0 => pool[at] = random.byte(),
        1 => pool[at] = random.pick(&[0, 1, 32, 33, 127, 128, 129, 255]),
        2 => pool[at] ^= 1 << random.below(8),
        3 => pool[at] = random.pick(b"DVCETP"),
        4 => pool.insert(at, random.byte()),
        5 => drop(pool.remove(at)),
        6 => pool.truncate(at),
        _ => {
            let other = sound_pool(random, 1).bytes;
            let from = random.below(other.len());
            pool.splice(at.., other[from..].iter().copied());
        }
    }
}

/// A bad record after sound ones and often before others, sound or bad: the
/// earliest bad one decides.
fn hostile(random: &mut Random) -> Vec<u8> {
    let mut pool = sound_pool(random, 0).bytes;
    pool.extend(bad_record(random));
    if random.one_in(3) {
        pool.extend(sound_pool(random, 0).bytes);
    }
    if random.one_in(4) {
        pool.extend(bad_record(random));
    }
    pool
}

fn bad_record(random: &mut Random) -> Vec<u8> {
    match random.below(8) {
        0 => cut_record(random),
        1 | 2 => long_text(random),
        3 => long_list(random),
        4 => cut_mark(random),
        5 => wrong_mark(random),
        6 => random.pick(&KINDS).mark().into(),
        _ => (0..random.between(1, 40)).map(|_| random.byte()).collect(),
    }
}

fn cut_record(random: &mut Random) -> Vec<u8> {
    let mut record = Shape::sound(random, TEXT_LIMIT, 10).bytes(random);
    record.truncate(random.between(1, record.len() - 1));
    record
}

/// A length byte over its limit; its text may be whole, cut or absent.
fn long_text(random: &mut Random) -> Vec<u8> {
    let mut shape = Shape::sound(random, 20, 3);
    for _ in 0..random.between(1, 2) {
        let index = random.below(shape.text_count());
        let over = shape.limit(index) + 1;
        let any = random.between(over, 255);
        shape.texts[index] = random.pick(&[over, over, any, 255]);
    }
    let mut record = shape.bytes(random);
    if random.one_in(2) {
        record.truncate(random.between(5, record.len()));
    }
    record
}

/// A device element whose count runs past the end of its list.
fn long_list(random: &mut Random) -> Vec<u8> {
    let mut shape = Shape::sound(random, 20, 10);
    shape.kind = Kind::Det;
    let mut record = shape.bytes(random);
    let stated = random.pick(&[shape.entries + 1, shape.entries + 256, 32_768, 65_535]);
    let at = shape.entry_count_at();
    record[at..at + 2].copy_from_slice(&(stated as u16).to_le_bytes());
    record
}

fn cut_mark(random: &mut Random) -> Vec<u8> {
    let mut mark: Vec<u8> = random.pick(&KINDS).mark().into();
    mark.truncate(random.between(1, 2));
    if random.one_in(3) {
        mark.fill_with(|| random.byte());
    }
    mark
}

fn wrong_mark(random: &mut Random) -> Vec<u8> {
    let mut record = Shape::sound(random, 20, 3).bytes(random);
    match random.below(3) {
        0 => record[..3].make_ascii_lowercase(),
        1 => record[..3].reverse(),
        _ => record[random.below(3)] = random.byte(),
    }
    record
}

/// Pools of about the greatest length that is read and with the most records,
/// half of them mutated.
fn large(random: &mut Random) -> (Class, Vec<u8>, Known) {
    let longest_text = random.pick(&[0, 0, 2, 20, TEXT_LIMIT]);
    let length = match random.below(4) {
        0 => random.between(20_000, MAX_POOL_BYTES),
        1 => random.between(65_520, 65_550),
        2 => random.pick(&[65_534, 65_535, 65_536, 70_000]),
        _ => return dense(random),
    };
    let pool = Pool::of_length(random, length, longest_text);
    spoilt_by_half(random, pool)
}

/// Mostly the shortest records, about as many as the lister's table or a pool
/// can hold.
fn dense(random: &mut Random) -> (Class, Vec<u8>, Known) {
    let most = MAX_POOL_BYTES / SHORTEST_RECORD;
    let count = match random.below(3) {
        0 => random.between(2_046, 2_050),
        1 => random.between(most - 30, most + 2),
        _ => random.between(1_000, most),
    };
    let mut pool = Pool::default();
    for _ in 0..count {
        let kind = if random.one_in(100) {
            Kind::Det
        } else {
            Kind::Dpd
        };
        pool.push(&Shape::shortest(kind), random);
    }
    spoilt_by_half(random, pool)
}

fn spoilt_by_half(random: &mut Random, mut pool: Pool) -> (Class, Vec<u8>, Known) {
    if random.one_in(2) {
        mutate(random, &mut pool.bytes);
        return (Class::Large, pool.bytes, Known::Nothing);
    }
    let known = known_of(&pool);
    (Class::Large, pool.bytes, known)
}
