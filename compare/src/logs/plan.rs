//! Records that every run compares, for reading and for writing.

use super::draft::{Draft, EASTS, HEADER_COUNTS, NORTHS, REFUSED_LAYOUTS, TIMES};
use super::rules::{
    EAST, GREATEST_EAST, GREATEST_NORTH, GREATEST_TIME, LAYOUTS, MOST_VALUES, NORTH, STATUS,
};
use crate::random::Random;
use second::LogFields;

/// Layouts without and with all optional fields, the vector's and others.
pub const SOME_LAYOUTS: [u32; 6] = [0, 0x1FF, 0x00B, 0x009, 0x0F4, 0x155];
/// Counts that are used with all layouts.
const SOME_COUNTS: [usize; 6] = [0, 1, 2, 17, 128, 255];
/// Fields without a limit, before the status and after it.
const UP: usize = 2;
const HDOP: usize = 5;
/// Known statuses and unknown ones, next to each other.
const SOME_STATUSES: [u8; 9] = [0, 8, 9, 13, 14, 15, 16, 127, 255];
/// How many refused layouts are drawn besides the fixed ones.
const DRAWN_LAYOUTS: usize = 21;
/// The count of records that are cut at every byte.
const CUT_COUNT: usize = 2;

/// Every layout with some counts, and every count with some layouts.
pub fn every_size(random: &mut Random) -> Vec<Draft> {
    let mut sizes = Vec::new();
    for layout in every_layout(random) {
        sizes.extend(SOME_COUNTS.map(|count| (layout, count)));
    }
    for layout in SOME_LAYOUTS {
        sizes.extend((0..=MOST_VALUES).map(|count| (layout, count)));
    }
    let drafts = sizes.into_iter();
    drafts
        .map(|(layout, count)| Draft::draw(random, layout, count))
        .collect()
}

/// Every layout that is not refused, and many that are.
pub fn every_layout(random: &mut Random) -> Vec<u32> {
    let drawn =
        (0..DRAWN_LAYOUTS).map(|_| random.draw() as u16 as u32 | 1 << random.between(9, 31));
    let refused = REFUSED_LAYOUTS.into_iter().chain(drawn);
    (0..LAYOUTS).chain(refused).collect()
}

/// Whether a record is to be cut at every byte: with few values under every
/// layout, with many under some.
pub fn is_cut(draft: &Draft) -> bool {
    let is_long = [30, MOST_VALUES].contains(&draft.count());
    draft.count() == CUT_COUNT || is_long && SOME_LAYOUTS.contains(&draft.layout)
}

/// Records with a field, an ordinal or the header's count at a limit, on both
/// sides of it.
pub fn every_limit(random: &mut Random) -> Vec<Draft> {
    let mut drafts = Vec::new();
    single_fields(&mut drafts, random);
    joint_fields(&mut drafts, random);
    every_status(&mut drafts, random);
    header_counts(&mut drafts, random);
    every_ordinal(&mut drafts, random);
    drafts
}

/// One field at a time, under every layout, including unmarked fields.
fn single_fields(drafts: &mut Vec<Draft>, random: &mut Random) {
    for layout in 0..LAYOUTS {
        let count = random.below(4);
        let sound = Draft::draw(random, layout, count);
        let mut add = |change: &dyn Fn(&mut LogFields)| {
            let mut draft = sound.clone();
            change(&mut draft.fields);
            drafts.push(draft);
        };
        for time in TIMES {
            add(&|fields| fields.time = time);
        }
        for north in NORTHS {
            add(&|fields| fields.north = north);
        }
        for east in EASTS {
            add(&|fields| fields.east = east);
        }
        for status in SOME_STATUSES {
            add(&|fields| fields.status = status);
        }
    }
}

/// All fields that have limits and an ordinal, each within its limit and beyond
/// it.
fn joint_fields(drafts: &mut Vec<Draft>, random: &mut Random) {
    let times = [GREATEST_TIME, GREATEST_TIME + 1];
    let norths = [-GREATEST_NORTH, GREATEST_NORTH + 1, i32::MIN];
    let easts = [GREATEST_EAST, -GREATEST_EAST - 1, i32::MIN];
    let statuses = [14, 13, 255];
    let ordinals = [6, 7];
    for layout in limited_layouts() {
        for choice in 0..2 * 3 * 3 * 3 * 2 {
            let mut draft = Draft::draw(random, layout, 3);
            draft.fields.time = times[choice % 2];
            draft.fields.north = norths[choice / 2 % 3];
            draft.fields.east = easts[choice / 6 % 3];
            draft.fields.status = statuses[choice / 18 % 3];
            draft.ordinals = vec![6, 0, ordinals[choice / 54]];
            draft.logged = 7;
            drafts.push(draft);
        }
    }
}

fn every_status(drafts: &mut Vec<Draft>, random: &mut Random) {
    for layout in limited_layouts() {
        for status in 0..=255 {
            let mut draft = Draft::draw(random, layout, 1);
            draft.fields.status = status;
            drafts.push(draft);
        }
    }
}

/// All combinations of the fields that have limits, and of others between them.
fn limited_layouts() -> impl Iterator<Item = u32> {
    (0..32).map(|choice| {
        let fields = [NORTH, EAST, UP, STATUS, HDOP];
        let bits = fields.iter().enumerate();
        bits.map(|(bit, field)| (choice >> bit & 1) << field).sum()
    })
}

/// Header counts with ordinals on both sides of them.
fn header_counts(drafts: &mut Vec<Draft>, random: &mut Random) {
    for layout in SOME_LAYOUTS {
        for count in SOME_COUNTS {
            for logged in HEADER_COUNTS.into_iter().chain([count]) {
                let edges = [0, logged.saturating_sub(1), logged, 255];
                for ordinal in edges.map(|it| it.min(255) as u8) {
                    let mut draft = Draft::draw(random, layout, count);
                    draft.logged = logged;
                    draft.ordinals.fill(0);
                    if count > 0 {
                        let any = random.below(count);
                        draft.ordinals[random.pick(&[0, any, count - 1])] = ordinal;
                    }
                    drafts.push(draft);
                }
            }
        }
    }
}

/// Records of every count with one ordinal too high: at every place in short
/// records and in the longest, otherwise at the last place and another.
fn every_ordinal(drafts: &mut Vec<Draft>, random: &mut Random) {
    for count in 1..=MOST_VALUES {
        let is_full = count <= 40 || count == MOST_VALUES;
        let any = random.below(count);
        for place in (0..count).filter(|&it| is_full || it == any || it == count - 1) {
            let layout = random.pick(&SOME_LAYOUTS);
            let logged = random.between(1, 255);
            let mut draft = Draft::under(random, layout, logged, count);
            draft.ordinals[place] = logged as u8;
            drafts.push(draft);
        }
    }
}

/// This length, its neighbours and 0.
pub fn around(length: usize) -> Vec<usize> {
    let mut lengths = vec![0, length.saturating_sub(1), length, length + 1];
    lengths.dedup();
    lengths
}

/// Up to `most` random bytes.
pub fn any_bytes(random: &mut Random, most: usize) -> Vec<u8> {
    let count = random.between(0, most);
    (0..count).map(|_| random.byte()).collect()
}

/// Changes one or a few bytes, if there are any.
pub fn change(random: &mut Random, bytes: &mut [u8]) {
    for _ in 0..random.between(1, 3) {
        if !bytes.is_empty() {
            let at = random.below(bytes.len());
            let any = random.byte();
            bytes[at] = random.pick(&[any, bytes[at] ^ 1, bytes[at] ^ 128, 0, 255]);
        }
    }
}

#[cfg(test)]
mod tests {
    use super::*;
    use std::collections::HashSet;

    #[test]
    fn layouts_are_all_there_and_some_are_refused() {
        let layouts = every_layout(&mut Random::new(11783));
        assert!((0..LAYOUTS).all(|layout| layouts.contains(&layout)));
        let refused = layouts.iter().filter(|&&layout| layout >= LAYOUTS);
        assert_eq!(refused.count(), REFUSED_LAYOUTS.len() + DRAWN_LAYOUTS);
        let limited: Vec<u32> = limited_layouts().collect();
        assert_eq!(limited[..5], [0, 1, 2, 3, 4]);
        assert_eq!(limited[31], 0x2F);
    }

    #[test]
    fn all_layouts_and_all_counts_are_sizes() {
        let drafts = every_size(&mut Random::new(11783));
        let sizes: HashSet<(u32, usize)> = (drafts.iter())
            .map(|draft| (draft.layout, draft.count()))
            .collect();
        for layout in 0..LAYOUTS {
            assert!(SOME_COUNTS.iter().all(|&it| sizes.contains(&(layout, it))));
        }
        for count in 0..=255 {
            assert!(SOME_LAYOUTS.iter().all(|&it| sizes.contains(&(it, count))));
        }
        let cut = drafts.iter().filter(|draft| is_cut(draft));
        let cut: HashSet<u32> = cut.map(|draft| draft.layout).collect();
        assert!((0..LAYOUTS).all(|layout| cut.contains(&layout)));
    }

    #[test]
    fn lengths_lie_around() {
        assert_eq!(around(0), [0, 1]);
        assert_eq!(around(1), [0, 1, 2]);
        assert_eq!(around(255), [0, 254, 255, 256]);
    }
}
