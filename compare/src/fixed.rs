//! Inputs that are the same in every run.

use crate::accepted;
use crate::breaches::{breach_in_way, WAYS};
use crate::extremes::extremes;
use crate::fields;
use crate::input::{Class, Input, Known};
use crate::random::Random;
use crate::realistic::realistic;
use crate::shape::{Pool, Shape, KINDS, SHORTEST_RECORD};
use crate::vectors::{self, Vector};
use crate::verdict::Effort;
use second::{Kind, MAX_POOL_BYTES};
use std::io;

/// Fills the free fields of fixed records.
const FILLING: u64 = 11783;
const BREACHES_EACH: usize = 100;

pub fn inputs() -> io::Result<Vec<Input>> {
    let vectors = vectors::load()?;
    if vectors.is_empty() {
        return Err(io::Error::other("no pool vectors found"));
    }
    // Short pools come first: the first difference is shown, and a short pool
    // is easier to read.
    let mut inputs = Vec::new();
    inputs.extend(worked_lines());
    inputs.extend(fields::inputs());
    inputs.extend(limits());
    inputs.extend(marks());
    inputs.extend(cuts(&vectors));
    inputs.extend(changes());
    inputs.extend(vectors.into_iter().map(|vector| {
        Input::new(Class::Vectors, vector.name, vector.pool).knowing(Known::Output(vector.output))
    }));
    inputs.extend(each_breach());
    inputs.extend(edges());
    inputs.extend(realistic_inputs());
    inputs.extend(extreme_inputs());
    Ok(inputs)
}

/// Pool P of the worked lines.
pub fn pool_p() -> Vec<u8> {
    let mut pool = b"DVC\0\0".to_vec();
    pool.extend([0; 11]);
    pool.extend([1; 7]);
    pool.extend(*b"en\0\0\0\0\xFF\0");
    pool.extend(*b"DET\x01\0\x01\0\0\0\0\0\0\0");
    pool
}

/// Pool Q of the worked lines.
pub fn pool_q() -> Vec<u8> {
    let mut pool = pool_p();
    pool.extend(*b"DET\x02\0\x04\0\x01\0\x01\0\x01\0\x03\0");
    pool.extend(*b"DPD\x03\0\x8D\0\x01\x09\0\xFF\xFF");
    pool
}

/// A pool with one short record of each kind, the device last but one.
fn pool_of_all_kinds() -> Vec<u8> {
    let random = &mut Random::new(FILLING);
    let mut pool = Pool::default();
    for kind in [Kind::Det, Kind::Dpt, Kind::Dpd, Kind::Dvc, Kind::Dvp] {
        let shape = Shape {
            kind,
            texts: [3, 2, 1, 2],
            entries: 2,
        };
        pool.push(&shape, random);
    }
    pool.bytes
}

fn worked_lines() -> Vec<Input> {
    let (p, q) = (pool_p(), pool_q());
    let mut parent = p.clone();
    parent[40] = 1;
    let mut designator = p.clone();
    designator[5] = 128;
    designator.splice(6..6, [b'a'; 128]);
    let mut long_designator = designator.clone();
    long_designator[5] = 129;
    let pools = [
        ("empty", Vec::new()),
        ("P's first 31 bytes", p[..31].to_vec()),
        ("P", p),
        ("P with parent 1", parent),
        ("P with a designator of 128 bytes", designator),
        ("P with designator length 129", long_designator),
        ("Q's first 59 bytes", q[..59].to_vec()),
        ("Q's first 70 bytes", q[..70].to_vec()),
        ("Q", q),
        ("all kinds", pool_of_all_kinds()),
    ];
    pools
        .into_iter()
        .map(|(name, pool)| Input::new(Class::Worked, name, pool))
        .collect()
}

/// Each length byte around its limit: alone, before P, after P and cut at
/// every byte.
fn limits() -> Vec<Input> {
    let mut inputs = Vec::new();
    for kind in KINDS {
        let shape = Shape::shortest(kind);
        for index in 0..shape.text_count() {
            let limit = shape.limit(index);
            for length in [0, 1, limit - 1, limit, limit + 1, limit + 2, 255] {
                limit_inputs(&shape, index, length, &mut inputs);
            }
        }
    }
    inputs
}

fn limit_inputs(shape: &Shape, index: usize, length: usize, inputs: &mut Vec<Input>) {
    let mut shape = *shape;
    shape.texts[index] = length;
    let record = shape.bytes(&mut Random::new(FILLING));
    let name = format!("{} text {index} of {length} bytes", shape.kind.mark());
    let p = pool_p();
    for (place, pool) in [
        ("before P", [&record[..], &p[..]].concat()),
        ("after P", [&p[..], &record[..]].concat()),
        ("alone", record.clone()),
    ] {
        inputs.push(Input::new(Class::Limits, format!("{name}, {place}"), pool));
    }
    for cut in 1..record.len() {
        let name = format!("{name}, cut to {cut}");
        inputs.push(Input::new(Class::Limits, name, record[..cut].to_vec()).unlisted());
    }
}

/// One to three bytes where a record should begin, whole marks and wrong ones.
fn marks() -> Vec<Input> {
    let mut starts: Vec<Vec<u8>> = (0..=255).map(|byte| vec![byte]).collect();
    for first in *b"DVCETPd\0" {
        for second in *b"DVCETPv\0" {
            starts.push(vec![first, second]);
            for third in *b"DVCETPt\0" {
                starts.push(vec![first, second, third]);
            }
        }
    }
    starts.iter().flat_map(|start| mark_inputs(start)).collect()
}

fn mark_inputs(start: &[u8]) -> [Input; 3] {
    let input = |name: &str, pool| Input::new(Class::Marks, format!("{start:02X?} {name}"), pool);
    [
        input("alone", start.to_vec()).unlisted(),
        input("after P", [&pool_p()[..], start].concat()),
        input("before zeros", [start, &[0; 40]].concat()).unlisted(),
    ]
}

/// Pools of about the greatest length that is read, with the most records, with
/// more than the lister's table holds, and with the longest lists.
fn edges() -> Vec<Input> {
    let mut inputs = Vec::new();
    for length in [
        65_533, 65_534, 65_535, 65_536, 65_537, 70_000, 131_072, 200_000,
    ] {
        length_inputs(length, &mut inputs);
    }
    for count in [2_047, 2_048, 2_049, 4_096, 5_461, 5_462, 8_192, 8_193] {
        let name = format!("{count} shortest records");
        inputs.push(Input::new(Class::Edges, name, shortest_records(count)));
    }
    let most = MAX_POOL_BYTES / SHORTEST_RECORD;
    for tail in [&b"D"[..], b"DP", b"\0\0", b"DPD", b"DPd", b"DVC", b"\0\0\0"] {
        let name = format!("{most} shortest records, then {tail:02X?}");
        let pool = [&shortest_records(most)[..], tail].concat();
        inputs.push(Input::new(Class::Edges, name, pool));
    }
    for entries in [32_760, 32_761, 32_762, 65_535] {
        list_inputs(entries, &mut inputs);
    }
    inputs
}

/// Pools of this length, sound or with their first or last record bad.
fn length_inputs(length: usize, inputs: &mut Vec<Input>) {
    let sound = |length| Pool::of_length(&mut Random::new(FILLING), length, 20).bytes;
    let with_end = |end: &[u8]| [&sound(length - end.len())[..], end].concat();
    let mut bad_start = sound(length);
    bad_start[0] = 0;
    for (name, pool) in [
        ("sound", sound(length)),
        ("zeros", vec![0; length]),
        ("bad start", bad_start),
        ("cut mark at the end", with_end(b"DV")),
        ("wrong mark at the end", with_end(b"DVX")),
        ("bare mark at the end", with_end(b"DVP")),
    ] {
        let name = format!("{length} bytes, {name}");
        inputs.push(Input::new(Class::Edges, name, pool));
    }
}

fn shortest_records(count: usize) -> Vec<u8> {
    let record = Shape::shortest(Kind::Dpd).bytes(&mut Random::new(FILLING));
    record.repeat(count)
}

/// A device element's list: whole, cut to the longest pool, and cut to less.
fn list_inputs(entries: usize, inputs: &mut Vec<Input>) {
    let mut shape = Shape::shortest(Kind::Det);
    shape.entries = entries;
    let pool = shape.bytes(&mut Random::new(FILLING));
    for length in [13, 14, 15, 65_534, 65_535, pool.len() - 1, pool.len()] {
        if let Some(start) = pool.get(..length) {
            let name = format!("DET with {entries} entries, first {length} bytes");
            inputs.push(Input::new(Class::Edges, name, start.to_vec()));
        }
    }
}

/// The vectors and some small pools, cut at every byte.
fn cuts(vectors: &[Vector]) -> Vec<Input> {
    let mut pools: Vec<(&str, &[u8])> = vectors
        .iter()
        .map(|vector| (&vector.name[..], &vector.pool[..]))
        .collect();
    let all_kinds = pool_of_all_kinds();
    pools.push(("all kinds", &all_kinds));
    let mut inputs = Vec::new();
    for (name, pool) in pools {
        for length in 0..pool.len() {
            let name = format!("{name}, first {length} bytes");
            inputs.push(Input::new(Class::Cuts, name, pool[..length].to_vec()));
        }
    }
    inputs
}

/// The pools that are hard on a checker, in small sizes and in the greatest.
fn extreme_inputs() -> Vec<Input> {
    let mut inputs = Vec::new();
    for bytes in [600, 6_000, MAX_POOL_BYTES] {
        for extreme in extremes(bytes) {
            let name = format!("{}, {bytes} bytes", extreme.name);
            let input = Input::of_objects(Class::Extremes, name, extreme.objects);
            // Only the longest take long.
            let is_longest = bytes == MAX_POOL_BYTES;
            inputs.push(if is_longest {
                input.with(Effort::Little)
            } else {
                input
            });
        }
    }
    inputs
}

/// Sound pools as implements send them.
fn realistic_inputs() -> impl Iterator<Item = Input> {
    [1_000, 8_000, 32_000, MAX_POOL_BYTES]
        .into_iter()
        .map(|size| {
            let name = format!("realistic, {size} bytes");
            Input::of_objects(Class::Realistic, name, realistic(size))
                .knowing(Known::Breaches(Vec::new()))
                .with(Effort::Exhaustive)
        })
}

/// Each breach several times, so that even a run without seeded pools has all.
fn each_breach() -> impl Iterator<Item = Input> {
    (0..BREACHES_EACH * WAYS).map(|index| {
        let random = &mut Random::for_item(FILLING, index as u64);
        let mut objects = accepted::objects(random);
        let breach = breach_in_way(index % WAYS, random, &mut objects);
        let name = format!("breach {index}");
        Input::of_objects(Class::Breached, name, objects)
            .knowing(Known::Breach(breach))
            .unlisted()
    })
}

/// Every byte of some small pools changed to every value, and listed for the
/// values around limits.
fn changes() -> Vec<Input> {
    let mut inputs = Vec::new();
    for (name, pool) in [
        ("P", pool_p()),
        ("Q", pool_q()),
        ("all kinds", pool_of_all_kinds()),
    ] {
        for at in 0..pool.len() {
            for value in 0..=255 {
                inputs.push(change_input(name, &pool, at, value));
            }
        }
    }
    inputs
}

fn change_input(name: &str, pool: &[u8], at: usize, value: u8) -> Input {
    let mut changed = pool.to_vec();
    changed[at] = value;
    let name = format!("{name} with {value} at {at}");
    let input = Input::new(Class::Changes, name, changed);
    if matches!(value, 0 | 1 | 2 | 32 | 33 | 128 | 129 | 255 | b'D' | b'P') {
        input
    } else {
        input.unlisted().with(Effort::Usual)
    }
}
