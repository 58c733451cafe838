//! Sound pools with a mix of records like that of real implements.

use crate::objects::{Object, DEVICE_TYPE, SECTION_TYPE};
use crate::random::Random;
use second::Kind;

const SEED: u64 = 11783;
const MOST_ENTRIES: usize = 12;
const LONGEST_TEXT: usize = 24;
/// Bytes of a property with the longest text drawn here.
const LONGEST_DATA: usize = 14 + LONGEST_TEXT;
/// Bytes of a device element with the longest list, its data and a
/// presentation.
const LONGEST_GROUP: usize = 13 + LONGEST_TEXT + MOST_ENTRIES * (2 + LONGEST_DATA) + 21;

struct Maker {
    random: Random,
    objects: Vec<Object>,
    bytes: usize,
    elements: u16,
}

/// A device, then device elements, each followed by the data of its list, and a
/// presentation here and there; about `size` bytes in all.
pub fn realistic(size: usize) -> Vec<Object> {
    let mut maker = Maker {
        random: Random::new(SEED),
        objects: Vec::new(),
        bytes: 0,
        elements: 0,
    };
    maker.push_device();
    while maker.bytes + LONGEST_GROUP < size {
        maker.push_group();
    }
    while maker.bytes + LONGEST_DATA < size {
        let data = maker.data(Kind::Dpd, 0);
        maker.push(data);
    }
    maker.objects
}

impl Maker {
    fn push(&mut self, object: Object) {
        let mut bytes = Vec::new();
        object.write(&mut bytes);
        self.bytes += bytes.len();
        self.objects.push(object);
    }

    fn push_device(&mut self) {
        let mut device = Object::plain(Kind::Dvc, 0);
        device.texts = [self.letters(16), self.letters(8), self.letters(10)];
        device.extended = vec![1; 4];
        self.push(device);
    }

    /// A device element, its data and perhaps their presentation.
    fn push_group(&mut self) {
        let entries = self.random.between(1, MOST_ENTRIES) as u16;
        let presented = self.random.one_in(2);
        let mut element = self.object(Kind::Det);
        element.element_type = match self.elements {
            0 => DEVICE_TYPE,
            _ => SECTION_TYPE,
        };
        element.number = self.elements;
        element.parent = u16::from(self.elements > 0);
        element.entries = (element.id + 1..=element.id + entries).collect();
        let presentation = element.id + entries + 1;
        self.elements += 1;
        self.push(element);
        for ddi in 0..entries {
            let kind = self
                .random
                .pick(&[Kind::Dpd, Kind::Dpd, Kind::Dpd, Kind::Dpt]);
            let mut data = self.data(kind, ddi);
            if presented {
                data.presentation = presentation;
            }
            self.push(data);
        }
        if presented {
            let mut presentation = self.object(Kind::Dvp);
            presentation.texts[0].truncate(6);
            self.push(presentation);
        }
    }

    fn data(&mut self, kind: Kind, ddi: u16) -> Object {
        let mut data = self.object(kind);
        data.ddi = ddi;
        data.triggers = 9;
        data
    }

    /// A record with a designator, whose ID is its index.
    fn object(&mut self, kind: Kind) -> Object {
        let mut object = Object::plain(kind, self.objects.len() as u16);
        let length = self.random.between(0, LONGEST_TEXT);
        object.texts[0] = self.letters(length);
        object
    }

    fn letters(&mut self, count: usize) -> Vec<u8> {
        (0..count)
            .map(|_| self.random.between(usize::from(b'a'), usize::from(b'z')) as u8)
            .collect()
    }
}

#[cfg(test)]
mod tests {
    use super::*;

    #[test]
    fn a_pool_has_one_element_of_type_device() {
        for size in (1_000..66_000).step_by(1_000) {
            let objects = realistic(size);
            let roots = objects.iter().filter(|it| it.is_root_element());
            assert_eq!(roots.count(), 1, "{size} bytes");
        }
    }
}
