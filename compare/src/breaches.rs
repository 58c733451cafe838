//! Changes to a pool's records, each of which certainly breaches a rule.

use crate::accepted::{fresh, unused_id};
use crate::objects::{named, Object, GREATEST_NUMBER, GREATEST_SCALE, LEAST_SCALE, NO_REFERENCE};
use crate::random::Random;
use crate::shape::KINDS;
use crate::wording::unsound_text;
use second::{Fault, Kind};

/// What a fault is, without the IDs that follow from its record.
#[derive(Clone, Copy, Debug, PartialEq, Eq)]
pub struct Breach {
    pub record: u16,
    pub rule: u8,
    pub item: u16,
}

impl Breach {
    pub fn of(fault: &Fault) -> Self {
        let Fault {
            record, rule, item, ..
        } = *fault;
        Breach { record, rule, item }
    }
}

/// Makes a change and gives a breach that the pool then has; the change may
/// cause others too.
type Way = fn(&mut Random, &mut Vec<Object>) -> Breach;

const BREACHES: [Way; 22] = [
    own_id,
    repeated_id,
    another_device,
    text,
    label_bytes,
    label_bytes,
    element_type,
    element_number,
    properties,
    triggers,
    scale,
    decimals,
    missing_parent,
    missing_entry,
    missing_presentation,
    wrong_parent,
    wrong_entry,
    wrong_presentation,
    repeated_number,
    ring,
    whole_pool,
    repeated_ddi,
];
/// How many ways there are to breach a rule.
pub const WAYS: usize = BREACHES.len();

/// Scales on both sides of the range, zeros, infinities and NaNs.
pub const UNFIT_SCALES: [u32; 16] = [
    0,
    1,
    LEAST_SCALE - 1,
    GREATEST_SCALE + 1,
    0x7F7F_FFFF,
    0x7F80_0000,
    0x7F80_0001,
    0x7FC0_0000,
    0x7FFF_FFFF,
    0x8000_0000,
    LEAST_SCALE | 1 << 31,
    0xBF80_0000,
    GREATEST_SCALE | 1 << 31,
    0xFF80_0000,
    0xFFC0_0000,
    0xFFFF_FFFF,
];

/// Breaches a rule in a random way.
pub fn breach(random: &mut Random, objects: &mut Vec<Object>) -> Breach {
    let way = random.below(WAYS);
    breach_in_way(way, random, objects)
}

/// Breaches a rule in the given way.
pub fn breach_in_way(way: usize, random: &mut Random, objects: &mut Vec<Object>) -> Breach {
    BREACHES[way](random, objects)
}

fn breach_of(index: usize, rule: u8, item: usize) -> Breach {
    Breach {
        record: index as u16 + 1,
        rule,
        item: item as u16,
    }
}

/// Adds records until there are at least `count` of these kinds.
fn provide(random: &mut Random, objects: &mut Vec<Object>, kinds: &[Kind], count: usize) {
    let is_wanted = |object: &&Object| kinds.contains(&object.kind);
    for _ in objects.iter().filter(is_wanted).count()..count {
        let kind = random.pick(kinds);
        let object = fresh(random, objects, kind);
        objects.insert(random.below(objects.len() + 1), object);
    }
}

/// The index of any record of these kinds, of which there must be one.
fn any_of(random: &mut Random, objects: &[Object], kinds: &[Kind]) -> usize {
    let is_wanted = |index: &usize| kinds.contains(&objects[*index].kind);
    let wanted: Vec<usize> = (0..objects.len()).filter(is_wanted).collect();
    random.pick(&wanted)
}

/// The index of any record of this kind, which is added if there is none.
fn some(random: &mut Random, objects: &mut Vec<Object>, kind: Kind) -> usize {
    provide(random, objects, &[kind], 1);
    any_of(random, objects, &[kind])
}

/// Two different records of this kind, the earlier one first.
fn two(random: &mut Random, objects: &mut Vec<Object>, kind: Kind) -> (usize, usize) {
    provide(random, objects, &[kind], 2);
    let first = any_of(random, objects, &[kind]);
    loop {
        let other = any_of(random, objects, &[kind]);
        if other != first {
            return (first.min(other), first.max(other));
        }
    }
}

/// An ID that names this very record, which gets a new one if necessary.
fn name_of(random: &mut Random, objects: &mut [Object], index: usize) -> u16 {
    if named(objects, objects[index].id) != Some(index) {
        objects[index].id = unused_id(random, objects);
    }
    objects[index].id
}

/// The ID of a record of one of these kinds.
fn name_of_any(random: &mut Random, objects: &mut [Object], kinds: &[Kind]) -> u16 {
    let index = any_of(random, objects, kinds);
    name_of(random, objects, index)
}

/// An ID that names nothing: 65535, even if a record carries it, or one that no
/// record carries.
fn name_of_none(random: &mut Random, objects: &mut [Object]) -> u16 {
    match random.below(4) {
        0 => NO_REFERENCE,
        1 => {
            let index = random.below(objects.len());
            objects[index].id = NO_REFERENCE;
            NO_REFERENCE
        }
        _ => unused_id(random, objects),
    }
}

fn own_id(random: &mut Random, objects: &mut Vec<Object>) -> Breach {
    let kind = random.pick(&KINDS);
    let index = some(random, objects, kind);
    let carried = objects[random.below(objects.len())].id.max(1);
    objects[index].id = match kind {
        Kind::Dvc => random.pick(&[1, 256, carried, 65_534, 65_535]),
        _ => random.pick(&[0, 65_535]),
    };
    breach_of(index, 1, 1)
}

fn repeated_id(random: &mut Random, objects: &mut Vec<Object>) -> Breach {
    provide(random, objects, &KINDS, 2);
    let later = random.between(1, objects.len() - 1);
    let earlier = random.below(later);
    if random.one_in(6) {
        objects[earlier].id = NO_REFERENCE;
    }
    objects[later].id = objects[earlier].id;
    breach_of(later, 2, 1)
}

fn another_device(random: &mut Random, objects: &mut Vec<Object>) -> Breach {
    let mut device = fresh(random, objects, Kind::Dvc);
    if random.one_in(2) {
        device.id = unused_id(random, objects);
    }
    objects.insert(random.below(objects.len() + 1), device);
    let (_, later) = two(random, objects, Kind::Dvc);
    breach_of(later, 3, 1)
}

fn text(random: &mut Random, objects: &mut Vec<Object>) -> Breach {
    let kind = random.pick(&[
        Kind::Dvc,
        Kind::Dvc,
        Kind::Det,
        Kind::Dpd,
        Kind::Dpt,
        Kind::Dvp,
    ]);
    let index = some(random, objects, kind);
    let place = random.below(objects[index].text_count());
    objects[index].texts[place] = unsound_text(random);
    breach_of(index, 4, place + 1)
}

/// Spoils one byte of a label, half the time more of them.
fn label_bytes(random: &mut Random, objects: &mut Vec<Object>) -> Breach {
    let index = some(random, objects, Kind::Dvc);
    let item = random.between(1, 14);
    let many = random.one_in(2);
    for other in 1..=14 {
        if other == item || many && random.one_in(2) {
            spoil_label(random, &mut objects[index], other);
        }
    }
    breach_of(index, 5, item)
}

fn spoil_label(random: &mut Random, device: &mut Object, item: usize) {
    match item {
        1..=7 => device.structure[item - 1] = 255,
        8..=13 => device.localization[item - 8] = 255,
        _ => device.localization[6] = random.pick(&[0, 1, 127, 254]),
    }
}

fn element_type(random: &mut Random, objects: &mut Vec<Object>) -> Breach {
    let index = some(random, objects, Kind::Det);
    objects[index].element_type = random.pick(&[0, 8, 9, 127, 128, 129, 255]);
    breach_of(index, 5, 1)
}

fn element_number(random: &mut Random, objects: &mut Vec<Object>) -> Breach {
    let index = some(random, objects, Kind::Det);
    let any = random.between(4_096, 65_535) as u16;
    objects[index].number = random.pick(&[GREATEST_NUMBER + 1, 4_097, 8_191, any, 65_535]);
    breach_of(index, 5, 2)
}

fn properties(random: &mut Random, objects: &mut Vec<Object>) -> Breach {
    let index = some(random, objects, Kind::Dpd);
    if random.one_in(2) {
        objects[index].properties |= 1 << random.between(3, 7);
        return breach_of(index, 5, 1);
    }
    objects[index].properties |= 0b110;
    breach_of(index, 5, 2)
}

fn triggers(random: &mut Random, objects: &mut Vec<Object>) -> Breach {
    let index = some(random, objects, Kind::Dpd);
    objects[index].triggers |= 1 << random.between(5, 7);
    breach_of(index, 5, 3)
}

fn scale(random: &mut Random, objects: &mut Vec<Object>) -> Breach {
    let index = some(random, objects, Kind::Dvp);
    objects[index].scale_bits = random.pick(&UNFIT_SCALES);
    breach_of(index, 5, 1)
}

fn decimals(random: &mut Random, objects: &mut Vec<Object>) -> Breach {
    let index = some(random, objects, Kind::Dvp);
    objects[index].decimals = random.pick(&[8, 9, 15, 128, 255]);
    breach_of(index, 5, 2)
}

fn missing_parent(random: &mut Random, objects: &mut Vec<Object>) -> Breach {
    let index = some(random, objects, Kind::Det);
    objects[index].parent = name_of_none(random, objects);
    breach_of(index, 6, 1)
}

fn missing_entry(random: &mut Random, objects: &mut Vec<Object>) -> Breach {
    let index = some(random, objects, Kind::Det);
    let id = name_of_none(random, objects);
    let place = put_entry(random, &mut objects[index].entries, id);
    breach_of(index, 6, place + 2)
}

fn missing_presentation(random: &mut Random, objects: &mut Vec<Object>) -> Breach {
    let kind = random.pick(&[Kind::Dpd, Kind::Dpt]);
    let index = some(random, objects, kind);
    objects[index].presentation = unused_id(random, objects);
    breach_of(index, 6, 1)
}

fn wrong_parent(random: &mut Random, objects: &mut Vec<Object>) -> Breach {
    let kind = random.pick(&[Kind::Dpd, Kind::Dpt, Kind::Dvp]);
    provide(random, objects, &[kind], 1);
    let index = some(random, objects, Kind::Det);
    objects[index].parent = name_of_any(random, objects, &[kind]);
    breach_of(index, 7, 1)
}

fn wrong_entry(random: &mut Random, objects: &mut Vec<Object>) -> Breach {
    let kind = random.pick(&[Kind::Dvc, Kind::Det, Kind::Dvp]);
    provide(random, objects, &[kind], 1);
    let index = some(random, objects, Kind::Det);
    let id = name_of_any(random, objects, &[kind]);
    let place = put_entry(random, &mut objects[index].entries, id);
    breach_of(index, 7, place + 2)
}

fn wrong_presentation(random: &mut Random, objects: &mut Vec<Object>) -> Breach {
    let target = random.pick(&[Kind::Dvc, Kind::Det, Kind::Dpd, Kind::Dpt]);
    let kind = random.pick(&[Kind::Dpd, Kind::Dpt]);
    provide(random, objects, &[target], 1);
    let index = some(random, objects, kind);
    objects[index].presentation = name_of_any(random, objects, &[target]);
    breach_of(index, 7, 1)
}

/// Puts an ID into a list, in place of another one or between two, and gives
/// its place.
fn put_entry(random: &mut Random, entries: &mut Vec<u16>, id: u16) -> usize {
    let any = random.below(entries.len() + 1);
    let place = random.pick(&[0, any, entries.len()]);
    if place < entries.len() && random.one_in(2) {
        entries[place] = id;
    } else {
        entries.insert(place, id);
    }
    place
}

fn repeated_number(random: &mut Random, objects: &mut Vec<Object>) -> Breach {
    let (earlier, later) = two(random, objects, Kind::Det);
    if random.one_in(4) {
        objects[earlier].number = random.pick(&[4_096, 8_192, 65_535]);
    }
    objects[later].number = objects[earlier].number;
    breach_of(later, 8, 1)
}

/// Makes a device element the parent of one above it, or of itself. The chains
/// of all elements below now lead into a ring.
fn ring(random: &mut Random, objects: &mut Vec<Object>) -> Breach {
    let below = some(random, objects, Kind::Det);
    let mut above = below;
    for _ in 0..random.pick(&[0, 1, 1, 2, 5, 1_000]) {
        match named(objects, objects[above].parent) {
            Some(parent) if objects[parent].kind == Kind::Det => above = parent,
            _ => break,
        }
    }
    let id = name_of(random, objects, below);
    objects[above].parent = id;
    breach_of(above, 9, 1)
}

/// Removes from the pool what every pool must have.
fn whole_pool(random: &mut Random, objects: &mut Vec<Object>) -> Breach {
    // Some record has to remain.
    provide(random, objects, &[Kind::Dvp], 1);
    let rule = random.pick(&[10, 11]);
    match rule {
        10 => objects.retain(|object| object.kind != Kind::Dvc),
        _ if random.one_in(4) => objects.retain(|object| object.kind != Kind::Det),
        _ => {
            let other = random.pick(&[0, 2, 3, 4, 5, 6, 7, 8]);
            let roots = objects.iter_mut().filter(|it| it.is_root_element());
            roots.for_each(|it| it.element_type = other);
        }
    }
    Breach {
        record: 0,
        rule,
        item: 1,
    }
}

/// Puts two entries with one DDI into a list, and often others between them
/// that name nothing or a wrong kind.
fn repeated_ddi(random: &mut Random, objects: &mut Vec<Object>) -> Breach {
    const DATA: [Kind; 2] = [Kind::Dpd, Kind::Dpt];
    provide(random, objects, &DATA, 2);
    let index = some(random, objects, Kind::Det);
    let earlier = any_of(random, objects, &DATA);
    let later = if random.one_in(3) {
        earlier
    } else {
        any_of(random, objects, &DATA)
    };
    objects[later].ddi = objects[earlier].ddi;
    let mut ids = vec![name_of(random, objects, earlier)];
    for _ in 0..random.pick(&[0, 0, 1, 3]) {
        ids.push(name_of_no_data(random, objects));
    }
    ids.push(name_of(random, objects, later));
    let entries = &mut objects[index].entries;
    let place = random.below(entries.len() + 1);
    let last = place + ids.len() - 1;
    entries.splice(place..place, ids);
    breach_of(index, 12, last + 2)
}

/// An ID that names nothing, or a record that no list may name. There must be a
/// device element.
fn name_of_no_data(random: &mut Random, objects: &mut [Object]) -> u16 {
    match random.below(3) {
        0 => NO_REFERENCE,
        1 => unused_id(random, objects),
        _ => name_of_any(random, objects, &[Kind::Dvc, Kind::Det, Kind::Dvp]),
    }
}
