//! Pools that are hard on a checker.

use crate::objects::{Object, NO_REFERENCE};
use second::{Kind, MAX_POOL_BYTES};

/// Bytes of the shortest device, device element and process data.
const DEVICE: usize = 31;
const ELEMENT: usize = 13;
const DATA: usize = 12;
/// Bytes of a list's entry.
const ENTRY: usize = 2;

/// The library lists the IDs of long pools by their remainders modulo this.
const ID_HEADS: usize = 8_192;
/// How many IDs have the same remainder.
const IDS_OF_A_REMAINDER: usize = 0x1_0000 / ID_HEADS;
/// It lists the DDIs of a long list by their remainders modulo this.
const DDI_HEADS: usize = 2_048;
/// How many DDIs have the same remainder.
const DDIS_OF_A_REMAINDER: usize = 0x1_0000 / DDI_HEADS;

pub struct Extreme {
    pub name: &'static str,
    pub objects: Vec<Object>,
}

/// Pools of about `bytes` bytes.
pub fn extremes(bytes: usize) -> Vec<Extreme> {
    let records = 5_000 * bytes / MAX_POOL_BYTES;
    let entries = 30_000 * bytes / MAX_POOL_BYTES;
    let count = records as u16;
    let pools = [
        ("chain, parents before", elements(records, |id| id - 1)),
        (
            "chain, parents behind",
            elements(records, |id| (id + 1) % (count + 1)),
        ),
        ("ring", elements(records, |id| id % count + 1)),
        ("rings of two", elements(records, |id| ((id - 1) ^ 1) + 1)),
        ("equal IDs", equal_ids(records)),
        ("falling IDs", falling_ids(records)),
        ("entries name nothing", named_nothing(entries, 0)),
        (
            "half of them name data",
            named_nothing(entries / 2, entries / 2),
        ),
        ("the last DDI again", walks(bytes, |_, last| last)),
        (
            "all DDIs again",
            walks(bytes, |index, last| index % last + 1),
        ),
        ("IDs of equal remainders", crowded_ids(records)),
        ("the deepest ID", deepest(bytes, |index| index)),
        (
            "the deepest ID and DDI",
            deepest(bytes, |index| index * DDI_HEADS),
        ),
        ("equal remainders of both", crowded_lists(bytes)),
        ("texts of 4-byte characters", long_texts(bytes)),
        ("most faults", most_faults(bytes)),
    ];
    let extreme = |(name, objects)| Extreme { name, objects };
    pools.into_iter().map(extreme).collect()
}

fn device() -> Object {
    Object::plain(Kind::Dvc, 0)
}

/// The root element, with the ID 1.
fn root() -> Object {
    Object::root_element(1)
}

/// Device elements with IDs from 1 on; `parent` gives each ID's parent.
fn elements(count: usize, parent: impl Fn(u16) -> u16) -> Vec<Object> {
    let mut objects = vec![device(), root()];
    objects.extend((2..=count as u16).map(|id| Object::plain(Kind::Det, id)));
    for element in &mut objects[1..] {
        element.number = element.id - 1;
        element.parent = parent(element.id);
    }
    objects
}

/// Process data that all carry the same ID, which is also their presentation.
fn equal_ids(count: usize) -> Vec<Object> {
    let mut data = Object::plain(Kind::Dpd, 2);
    data.presentation = 2;
    let mut objects = vec![device(), root()];
    objects.resize(2 + count, data);
    objects
}

/// Process data with descending IDs, all with the last record as their
/// presentation.
fn falling_ids(count: usize) -> Vec<Object> {
    let mut objects = vec![device(), root()];
    for id in (3..3 + count as u16).rev() {
        let mut data = Object::plain(Kind::Dpd, id);
        data.presentation = 2;
        objects.push(data);
    }
    objects.push(Object::plain(Kind::Dvp, 2));
    objects
}

/// A list of entries that name nothing, followed by others that all name the
/// only process data.
fn named_nothing(nothing: usize, data: usize) -> Vec<Object> {
    let mut element = root();
    element.entries = (0..nothing).map(|index| 1_000 + index as u16).collect();
    element.entries.resize(nothing + data, 2);
    vec![device(), element, Object::plain(Kind::Dpd, 2)]
}

/// A list that names process data with different DDIs and then some of them
/// again, in such numbers that a walk from the list's start to the first
/// match takes the most steps in all. `again` picks from the first to the last
/// of them by the index of the entry.
fn walks(bytes: usize, again: impl Fn(usize, usize) -> usize) -> Vec<Object> {
    let (different, entries) = longest_walks(bytes);
    let mut element = root();
    let first_id = 2;
    for index in 0..entries {
        let data = if index < different {
            index + 1
        } else {
            again(index, different)
        };
        element.entries.push((first_id + data - 1) as u16);
    }
    let mut objects = vec![device(), element];
    for index in 0..different {
        let mut data = Object::plain(Kind::Dpd, (first_id + index) as u16);
        data.ddi = index as u16;
        objects.push(data);
    }
    objects
}

/// The ID of the process data with an index: as many as possible have the same
/// remainder, then as many have the next one. The remainders 0 and 1 are left
/// out: no ID may be 0, and the element has 1.
fn crowded_id(index: usize) -> u16 {
    (2 + index / IDS_OF_A_REMAINDER + ID_HEADS * (index % IDS_OF_A_REMAINDER)) as u16
}

/// Process data with such IDs, and without a fault.
fn crowded_ids(count: usize) -> Vec<Object> {
    let mut objects = vec![device(), root()];
    let ids = (0..count).map(crowded_id);
    objects.extend(ids.map(|id| Object::plain(Kind::Dpd, id)));
    objects
}

/// A list that names process data of different DDIs, and then the first of them
/// as often as fits: its ID is found only after all others of its remainder.
fn deepest(bytes: usize, ddi: impl Fn(usize) -> usize) -> Vec<Object> {
    let room = bytes - DEVICE - ELEMENT;
    let count = DDIS_OF_A_REMAINDER.min(room / (2 * DATA));
    let entries = (room - DATA * count) / ENTRY;
    listing(
        count,
        entries,
        ddi,
        |index| {
            if index < count {
                index
            } else {
                0
            }
        },
    )
}

/// A list that names as many process data as `walks` has, of equal remainders,
/// and then all of them again.
fn crowded_lists(bytes: usize) -> Vec<Object> {
    let (different, entries) = longest_walks(bytes);
    let many = DDIS_OF_A_REMAINDER;
    let ddi = |index: usize| index / many + DDI_HEADS * (index % many);
    listing(different, entries, ddi, |index| index % different)
}

/// `count` process data with crowded IDs, and a list of entries; `named` gives
/// the index of the data that an entry names.
fn listing(
    count: usize,
    entries: usize,
    ddi: impl Fn(usize) -> usize,
    named: impl Fn(usize) -> usize,
) -> Vec<Object> {
    let mut element = root();
    element.entries = (0..entries).map(|entry| crowded_id(named(entry))).collect();
    let mut objects = vec![device(), element];
    for index in 0..count {
        let mut data = Object::plain(Kind::Dpd, crowded_id(index));
        data.ddi = ddi(index) as u16;
        objects.push(data);
    }
    objects
}

/// How many process data and how many entries of one list fit into `bytes`
/// bytes and make the longest walks.
fn longest_walks(bytes: usize) -> (usize, usize) {
    let room = bytes - DEVICE - ELEMENT;
    // An entry with a new DDI walks past all before it, and each one after
    // these as far as the last of them.
    let steps = |&(different, entries): &(usize, usize)| {
        different * (different - 1) / 2 + (entries - different) * different
    };
    (1..=room / (DATA + ENTRY))
        .map(|different| (different, (room - DATA * different) / ENTRY))
        .max_by_key(steps)
        .expect("there is room for an entry")
}

/// As many texts of 32 four-byte characters as fit.
fn long_texts(bytes: usize) -> Vec<Object> {
    let text = "\u{1F33E}".repeat(32).into_bytes();
    let count = (bytes - DEVICE - ELEMENT) / (DATA + text.len());
    let mut objects = vec![device(), root()];
    for id in 2..2 + count as u16 {
        let mut data = Object::plain(Kind::Dpd, id);
        data.texts[0] = text.clone();
        objects.push(data);
    }
    objects
}

/// Devices with as many faults as possible: no other record has more per byte.
fn most_faults(bytes: usize) -> Vec<Object> {
    let mut device = Object::plain(Kind::Dvc, NO_REFERENCE);
    device.texts = [vec![0xFF], vec![0xFF], vec![0xFF]];
    device.structure = [255; 7];
    device.localization = [255, 255, 255, 255, 255, 255, 0];
    let length = DEVICE + device.texts.len();
    vec![device; bytes / length]
}

#[cfg(test)]
mod tests {
    use super::*;
    use crate::objects::pool_of;

    #[test]
    fn the_longest_are_just_read() {
        for extreme in extremes(MAX_POOL_BYTES) {
            let length = pool_of(&extreme.objects).len();
            let just = 60_000..=MAX_POOL_BYTES;
            assert!(just.contains(&length), "{}", extreme.name);
        }
    }

    #[test]
    fn none_has_two_elements_of_type_device() {
        for extreme in extremes(6_000) {
            let roots = extreme.objects.iter().filter(|it| it.is_root_element());
            assert!(roots.count() <= 1, "{}", extreme.name);
        }
    }

    #[test]
    fn walks_use_all_bytes_there_are() {
        let (different, entries) = longest_walks(MAX_POOL_BYTES);
        let length = DEVICE + ELEMENT + DATA * different + ENTRY * entries;
        assert!((MAX_POOL_BYTES - 1..=MAX_POOL_BYTES).contains(&length));
        assert!(entries > different);
    }
}
