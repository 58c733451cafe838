//! Pools with so few different IDs, element numbers and DDIs that these collide
//! very often.

use crate::breaches::UNFIT_SCALES;
use crate::objects::{Object, GREATEST_SCALE, LEAST_SCALE};
use crate::random::Random;
use crate::wording::{sound_text, unsound_text};
use second::Kind;

struct Maker<'a> {
    random: &'a mut Random,
    /// IDs are mostly below this bound.
    ids: usize,
    most_entries: usize,
}

/// The records of such a pool, in most cases only a few.
pub fn objects(random: &mut Random) -> Vec<Object> {
    let most = random.pick(&[4, 10, 10, 20, 20, 120]);
    let records = random.between(1, most);
    let mut maker = Maker {
        ids: random.pick(&[2, 4, 8, 16, 60]),
        most_entries: random.pick(&[0, 3, 8, 20]),
        random,
    };
    (0..records).map(|_| maker.object()).collect()
}

impl Maker<'_> {
    fn object(&mut self) -> Object {
        let kind = match self.random.below(10) {
            0 => Kind::Dvc,
            1..=4 => Kind::Det,
            5 | 6 => Kind::Dpd,
            7 | 8 => Kind::Dpt,
            _ => Kind::Dvp,
        };
        let mut object = Object::plain(kind, self.id());
        if kind == Kind::Dvc && !self.random.one_in(4) {
            object.id = 0;
        }
        for place in 0..object.text_count() {
            object.texts[place] = self.text();
        }
        self.fill_labels(&mut object);
        self.fill_element(&mut object);
        self.fill_data(&mut object);
        self.fill_presentation(&mut object);
        object
    }

    fn id(&mut self) -> u16 {
        match self.random.below(20) {
            0 => 65_535,
            1 => self.random.pick(&[0, 256, 65_534]),
            _ => self.random.below(self.ids) as u16,
        }
    }

    fn text(&mut self) -> Vec<u8> {
        if self.random.one_in(6) {
            unsound_text(self.random)
        } else {
            sound_text(self.random, 4)
        }
    }

    /// One of the usual values, sometimes one of the others.
    fn mostly<T: Copy>(&mut self, usual: &[T], others: &[T]) -> T {
        let rare = self.random.one_in(8);
        self.random.pick(if rare { others } else { usual })
    }

    fn fill_labels(&mut self, object: &mut Object) {
        for at in 0..7 {
            object.structure[at] = self.mostly(&[0, 1, 254], &[255]);
            let usual = object.localization[at];
            object.localization[at] = self.mostly(&[usual], &[0, 254, 255]);
        }
        object.extended = vec![255; self.random.pick(&[0, 1, 31, 32])];
    }

    fn fill_element(&mut self, object: &mut Object) {
        let few = self.random.below(self.ids) as u16;
        let entries = self.random.between(0, self.most_entries);
        object.element_type = self.mostly(&[1, 2, 7], &[0, 1, 7, 8, 255]);
        object.number = self.mostly(&[few], &[0, 1, 4_095, 4_096, 65_535]);
        object.parent = self.id();
        object.entries = (0..entries).map(|_| self.id()).collect();
    }

    fn fill_data(&mut self, object: &mut Object) {
        object.ddi = self.mostly(&[1, 2, 3], &[0, 256, 257, 65_535]);
        object.properties = self.mostly(&[0, 1, 2, 3, 4, 5], &[6, 7, 8, 14, 128]);
        object.triggers = self.mostly(&[0, 31], &[32, 64, 128, 255]);
        let any = self.id();
        object.presentation = self.mostly(&[65_535, any], &[0, 1, 2, 3, 4]);
    }

    fn fill_presentation(&mut self, object: &mut Object) {
        let usual = [LEAST_SCALE, 0x3F80_0000, GREATEST_SCALE];
        object.scale_bits = self.mostly(&usual, &UNFIT_SCALES);
        object.decimals = self.mostly(&[0, 7], &[8, 255]);
    }
}
