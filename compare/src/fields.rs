//! A sound pool with one field changed, to the values around its limits or to
//! all values. What each value breaches is stated here independently.

use crate::breaches::{Breach, UNFIT_SCALES};
use crate::input::{Class, Input, Known};
use crate::objects::{Object, GREATEST_SCALE, LEAST_SCALE};
use crate::shape::LABEL_LIMIT;
use crate::wording::{MALFORMED, MARK};
use second::Kind;

/// Records of the pool. No other record names the last four.
const DEVICE: usize = 1;
const ELEMENT: usize = 7;
const PROCESS_DATA: usize = 8;
const PROPERTY: usize = 9;
const PRESENTATION: usize = 10;
const UNNAMED: [usize; 4] = [ELEMENT, PROCESS_DATA, PROPERTY, PRESENTATION];
/// An ID that no record carries.
const NOT_CARRIED: u16 = 500;
/// One input in this many is also given to the lister.
const LISTED_EVERY: usize = 7;

fn sound() -> Vec<Object> {
    let mut objects = vec![
        Object::plain(Kind::Dvc, 0),
        Object::root_element(1),
        Object::plain(Kind::Det, 2),
        Object::plain(Kind::Dpd, 20),
        Object::plain(Kind::Dpt, 30),
        Object::plain(Kind::Dvp, 40),
        Object::plain(Kind::Det, 3),
        Object::plain(Kind::Dpd, 21),
        Object::plain(Kind::Dpt, 31),
        Object::plain(Kind::Dvp, 41),
    ];
    for (number, index) in [1, 2, 6].into_iter().enumerate() {
        objects[index].number = number as u16;
        objects[index].parent = number as u16;
    }
    objects[1].entries = vec![20, 30];
    objects[3].presentation = 40;
    objects[4].presentation = 40;
    // In the same list, 20 and 21 clash, and so do 20 and 31.
    for (index, ddi) in [(3, 141), (4, 134), (7, 141), (8, 141)] {
        objects[index].ddi = ddi;
    }
    objects
}

/// Inputs with one change each.
#[derive(Default)]
struct Sweep {
    inputs: Vec<Input>,
}

pub fn inputs() -> Vec<Input> {
    let mut sweep = Sweep::default();
    sweep.texts();
    sweep.labels();
    sweep.ids();
    sweep.elements();
    sweep.process_data();
    sweep.presentations();
    sweep.references();
    sweep.lists();
    sweep.inputs
}

impl Sweep {
    /// Changes one record, which then has these faults, given as rule and item.
    fn change(
        &mut self,
        record: usize,
        name: String,
        change: impl FnOnce(&mut Object),
        breaches: &[(u8, u16)],
    ) {
        let breach = |&(rule, item): &(u8, u16)| Breach {
            record: record as u16,
            rule,
            item,
        };
        let known = Known::Breaches(breaches.iter().map(breach).collect());
        self.push(record, name, change, known);
    }

    fn push(
        &mut self,
        record: usize,
        name: String,
        change: impl FnOnce(&mut Object),
        known: Known,
    ) {
        let mut objects = sound();
        let object = &mut objects[record - 1];
        change(object);
        let name = format!("{} with {name}", object.kind.mark());
        let mut input = Input::of_objects(Class::Fields, name, objects).knowing(known);
        input.listed = self.inputs.len().is_multiple_of(LISTED_EVERY);
        self.inputs.push(input);
    }

    fn texts(&mut self) {
        for (text, is_sound) in texts() {
            self.text(DEVICE, 0, &text, is_sound);
            self.text(DEVICE, 1, &text, is_sound);
            self.text(DEVICE, 2, &text, is_sound);
            for record in UNNAMED {
                self.text(record, 0, &text, is_sound);
            }
        }
    }

    fn text(&mut self, record: usize, place: usize, text: &[u8], is_sound: bool) {
        let name = format!("text {place} {text:02X?}");
        let breach = [(4, place as u16 + 1)];
        let breaches = if is_sound { &[][..] } else { &breach };
        let change = |object: &mut Object| object.texts[place] = text.to_vec();
        self.change(record, name, change, breaches);
    }

    fn labels(&mut self) {
        for value in [0, 1, 127, 128, 254, 255] {
            for at in 0..7 {
                let breach = [(5, at as u16 + 1)];
                let breaches = if value == 255 { &breach[..] } else { &[] };
                let name = format!("structure byte {at} {value}");
                self.change(DEVICE, name, |it| it.structure[at] = value, breaches);
                let breach = [(5, at as u16 + 8)];
                let breached = (value == 255) != (at == 6);
                let breaches = if breached { &breach[..] } else { &[] };
                let name = format!("localization byte {at} {value}");
                self.change(DEVICE, name, |it| it.localization[at] = value, breaches);
            }
        }
        for length in 0..=LABEL_LIMIT {
            let name = format!("extended label of {length} bytes");
            let label = (1..=length).map(|at| 255 / at as u8).collect();
            self.change(DEVICE, name, |it| it.extended = label, &[]);
        }
    }

    fn ids(&mut self) {
        for record in UNNAMED {
            for id in [20, 40, 255, 256, 257, 512, 32_768, 65_534] {
                let breaches = if id < 41 { &[(2, 1)][..] } else { &[] };
                self.change(record, format!("ID {id}"), |it| it.id = id, breaches);
            }
            self.change(record, "ID 0".into(), |it| it.id = 0, &[(1, 1), (2, 1)]);
            self.change(record, "ID 65535".into(), |it| it.id = 65_535, &[(1, 1)]);
        }
        for id in [1, 20, 256, NOT_CARRIED, 65_534, 65_535] {
            let name = format!("ID {id}");
            self.push(DEVICE, name, |it| it.id = id, Known::Nothing);
        }
    }

    fn elements(&mut self) {
        for value in 0..=255 {
            let breaches = match value {
                1..=7 => &[][..],
                _ => &[(5, 1)],
            };
            let name = format!("type {value}");
            self.change(ELEMENT, name, |it| it.element_type = value, breaches);
        }
        for number in [
            0, 1, 2, 3, 255, 256, 257, 4_094, 4_095, 4_096, 4_097, 8_192, 32_768, 65_535,
        ] {
            let breaches = match number {
                0 | 1 => &[(8, 1)][..],
                2..=4_095 => &[],
                _ => &[(5, 2)],
            };
            let name = format!("number {number}");
            self.change(ELEMENT, name, |it| it.number = number, breaches);
        }
    }

    fn process_data(&mut self) {
        for value in 0..=255 {
            let high = value > 7;
            let clash = value & 2 != 0 && value & 4 != 0;
            let breaches = match (high, clash) {
                (false, false) => &[][..],
                (true, false) => &[(5, 1)],
                (false, true) => &[(5, 2)],
                (true, true) => &[(5, 1), (5, 2)],
            };
            let name = format!("properties {value}");
            self.change(PROCESS_DATA, name, |it| it.properties = value, breaches);
            let breaches = if value > 31 { &[(5, 3)][..] } else { &[] };
            let name = format!("triggers {value}");
            self.change(PROCESS_DATA, name, |it| it.triggers = value, breaches);
        }
    }

    fn presentations(&mut self) {
        for bits in UNFIT_SCALES {
            let name = format!("scale {bits:08X}");
            self.change(PRESENTATION, name, |it| it.scale_bits = bits, &[(5, 1)]);
        }
        for bits in [
            LEAST_SCALE,
            LEAST_SCALE + 1,
            GREATEST_SCALE - 1,
            GREATEST_SCALE,
        ] {
            let name = format!("scale {bits:08X}");
            self.change(PRESENTATION, name, |it| it.scale_bits = bits, &[]);
        }
        for value in 0..=255 {
            let breaches = if value > 7 { &[(5, 2)][..] } else { &[] };
            let name = format!("decimals {value}");
            self.change(PRESENTATION, name, |it| it.decimals = value, breaches);
        }
    }

    fn references(&mut self) {
        for id in [0, 1, 2, 3, 20, 21, 30, 31, 40, 41, NOT_CARRIED, 65_535] {
            let breaches = match id {
                0..=2 => &[][..],
                3 => &[(9, 1)],
                4..=41 => &[(7, 1)],
                _ => &[(6, 1)],
            };
            self.change(
                ELEMENT,
                format!("parent {id}"),
                |it| it.parent = id,
                breaches,
            );
            let breaches = match id {
                40 | 41 | 65_535 => &[][..],
                NOT_CARRIED => &[(6, 1)],
                _ => &[(7, 1)],
            };
            for record in [PROCESS_DATA, PROPERTY] {
                let name = format!("presentation {id}");
                self.change(record, name, |it| it.presentation = id, breaches);
            }
        }
    }

    /// All lists of up to three of these entries.
    fn lists(&mut self) {
        const ENTRIES: [u16; 9] = [0, 2, 20, 21, 30, 31, 40, NOT_CARRIED, 65_535];
        for a in ENTRIES {
            self.list(&[a]);
            for b in ENTRIES {
                self.list(&[a, b]);
                for c in ENTRIES {
                    self.list(&[a, b, c]);
                }
            }
        }
    }

    fn list(&mut self, entries: &[u16]) {
        let name = format!("entries {entries:?}");
        let ddi = |id| match id {
            20 | 21 | 31 => Some(141),
            30 => Some(134),
            _ => None,
        };
        let mut breaches = Vec::new();
        for (place, &id) in entries.iter().enumerate() {
            let earlier = &entries[..place];
            let is_repeated = |ddi_of: u16| earlier.iter().any(|&it| ddi(it) == Some(ddi_of));
            let rule = match ddi(id) {
                Some(ddi) if is_repeated(ddi) => 12,
                Some(_) => continue,
                None if matches!(id, NOT_CARRIED | 65_535) => 6,
                None => 7,
            };
            breaches.push((rule, place as u16 + 2));
        }
        breaches.sort_unstable();
        let entries = entries.to_vec();
        self.change(ELEMENT, name, |it| it.entries = entries, &breaches);
    }
}

/// Texts around the limits, and whether they are sound.
fn texts() -> Vec<(Vec<u8>, bool)> {
    let mut texts = vec![
        (MARK.to_vec(), false),
        ([MARK, b"a"].concat(), false),
        ([b"a", MARK].concat(), true),
        (b"\xEF\xBB\xBE".to_vec(), true),
        (b"\xEF\xBB".to_vec(), false),
        (vec![b'a'; 128], false),
    ];
    for character in [
        "\0",
        "\u{7F}",
        "\u{80}",
        "\u{7FF}",
        "\u{800}",
        "\u{D7FF}",
        "\u{E000}",
        "\u{FFFF}",
        "\u{10000}",
        "\u{FFFFF}",
        "\u{10FFFF}",
    ] {
        for count in [0, 1, 31, 32, 33] {
            // 33 of the longest characters do not fit into a text.
            let text = character.repeat(count).into_bytes();
            if text.len() <= 128 {
                texts.push((text, count <= 32));
            }
        }
    }
    for sequence in MALFORMED {
        texts.push((sequence.to_vec(), false));
        texts.push(([b"a", sequence].concat(), false));
        texts.push(([sequence, b"a"].concat(), false));
        texts.push(([&[b'a'; 29], sequence].concat(), false));
    }
    texts
}
