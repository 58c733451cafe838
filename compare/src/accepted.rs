//! Pools without a fault, of many shapes and sizes.

use crate::objects::{Object, DEVICE_TYPE, GREATEST_NUMBER, GREATEST_SCALE, LEAST_SCALE};
use crate::random::Random;
use crate::shape::LABEL_LIMIT;
use crate::wording::sound_text;
use second::Kind;
use std::collections::HashSet;

/// IDs that a record other than a device may have: from 1 to 65534.
const IDS: usize = 65_534;
/// Steps that lead through all IDs, and through all element numbers.
const STEPS: [usize; 5] = [1, IDS - 1, 255, 257, 40_503];
const NUMBER_STEPS: [usize; 4] = [1, 4_095, 257, 1_501];
/// Types of device elements other than device.
const OTHER_TYPES: [u8; 6] = [2, 3, 4, 5, 6, 7];

/// How many records there are of each kind, and how they are connected.
struct Plan {
    elements: usize,
    data: usize,
    presentations: usize,
    fewest_entries: usize,
    most_entries: usize,
    longest_text: usize,
    /// How many different DDIs are drawn from.
    ddis: usize,
    tree: Tree,
}

/// The parents of device elements.
#[derive(Clone, Copy)]
enum Tree {
    /// All are directly below the device.
    Flat,
    /// Each is below the one before.
    Chain,
    Any,
}

impl Plan {
    fn draw(random: &mut Random) -> Self {
        match random.below(100) {
            0..=69 => Plan::of(random, [6, 12, 3]),
            70..=88 => Plan::of(random, [20, 60, 10]),
            89..=92 => Plan::chain(random),
            93..=98 => Plan::long_list(random),
            _ => Plan::of(random, [300, 1_200, 100]),
        }
    }

    /// Up to the given numbers of device elements, data and presentations.
    fn of(random: &mut Random, most: [usize; 3]) -> Self {
        let small = most[1] < 100;
        Plan {
            elements: random.between(1, most[0]),
            data: random.between(0, most[1]),
            presentations: random.between(0, most[2]),
            fewest_entries: 0,
            most_entries: random.pick(&[0, 4, 12]),
            longest_text: random.pick(if small { &[4, 12, 32] } else { &[6] }),
            ddis: random.pick(&[4, 20, 1_000]),
            tree: random.pick(&[Tree::Flat, Tree::Chain, Tree::Any, Tree::Any]),
        }
    }

    fn chain(random: &mut Random) -> Self {
        Plan {
            elements: random.between(110, 260),
            tree: Tree::Chain,
            ..Plan::of(random, [1, 6, 2])
        }
    }

    fn long_list(random: &mut Random) -> Self {
        let data = random.between(300, 500);
        Plan {
            data,
            fewest_entries: 260,
            most_entries: data,
            longest_text: 2,
            ddis: 65_536,
            ..Plan::of(random, [2, 1, 2])
        }
    }
}

/// Different numbers below a bound.
struct Series {
    bound: usize,
    step: usize,
    next: usize,
}

impl Series {
    fn new(random: &mut Random, bound: usize, steps: &[usize]) -> Self {
        let any = random.below(bound);
        Series {
            bound,
            step: random.pick(steps),
            next: random.pick(&[0, 0, bound - 1, any]),
        }
    }

    fn draw(&mut self) -> u16 {
        let number = self.next;
        self.next = (number + self.step) % self.bound;
        number as u16
    }
}

struct Maker<'a> {
    random: &'a mut Random,
    plan: Plan,
    ids: Series,
    numbers: Series,
}

/// The records of a pool without a fault.
pub fn objects(random: &mut Random) -> Vec<Object> {
    let plan = Plan::draw(random);
    let ids = Series::new(random, IDS, &STEPS);
    let numbers = Series::new(random, usize::from(GREATEST_NUMBER) + 1, &NUMBER_STEPS);
    let mut maker = Maker {
        random,
        plan,
        ids,
        numbers,
    };
    let objects = maker.objects();
    in_some_order(random, objects)
}

impl Maker<'_> {
    fn objects(&mut self) -> Vec<Object> {
        let presentations: Vec<Object> = (0..self.plan.presentations)
            .map(|_| self.presentation())
            .collect();
        let data: Vec<Object> = (0..self.plan.data)
            .map(|_| self.data(&presentations))
            .collect();
        let elements = self.elements(&data);
        let mut objects = vec![self.device()];
        objects.extend(elements);
        objects.extend(data);
        objects.extend(presentations);
        objects
    }

    fn id(&mut self) -> u16 {
        self.ids.draw() + 1
    }

    fn text(&mut self) -> Vec<u8> {
        sound_text(self.random, self.plan.longest_text)
    }

    fn device(&mut self) -> Object {
        let random = &mut *self.random;
        let label = random.between(0, LABEL_LIMIT);
        let mut device = Object::plain(Kind::Dvc, 0);
        device.name = random.draw().to_le_bytes();
        device.structure.fill_with(|| random.byte().min(254));
        device.localization[..6].fill_with(|| random.byte().min(254));
        device.extended = (0..label).map(|_| random.byte()).collect();
        device.texts = [self.text(), self.text(), self.text()];
        device
    }

    /// The first one, and no other, is of type device.
    fn elements(&mut self, data: &[Object]) -> Vec<Object> {
        let mut elements: Vec<Object> = Vec::new();
        for index in 0..self.plan.elements {
            let mut element = Object::plain(Kind::Det, self.id());
            element.texts[0] = self.text();
            element.number = self.numbers.draw();
            element.element_type = match index {
                0 => DEVICE_TYPE,
                _ => self.random.pick(&OTHER_TYPES),
            };
            if let Some(above) = self.above(index) {
                element.parent = elements[above].id;
            }
            element.entries = self.entries(data);
            elements.push(element);
        }
        elements
    }

    /// The device element above this one, or `None` for the device.
    fn above(&mut self, index: usize) -> Option<usize> {
        match self.plan.tree {
            Tree::Flat => None,
            Tree::Chain => index.checked_sub(1),
            Tree::Any => self.random.below(index + 1).checked_sub(1),
        }
    }

    /// Data from some place on, without those whose DDI is in the list already.
    fn entries(&mut self, data: &[Object]) -> Vec<u16> {
        if data.is_empty() {
            return Vec::new();
        }
        let from = self.random.below(data.len());
        let Plan {
            fewest_entries,
            most_entries,
            ..
        } = self.plan;
        let count = self.random.between(fewest_entries, most_entries);
        let mut ddis = HashSet::new();
        let drawn = data.iter().cycle().skip(from).take(count);
        drawn
            .filter(|data| ddis.insert(data.ddi))
            .map(|data| data.id)
            .collect()
    }

    fn data(&mut self, presentations: &[Object]) -> Object {
        let kind = self.random.pick(&[Kind::Dpd, Kind::Dpd, Kind::Dpt]);
        let mut data = Object::plain(kind, self.id());
        data.texts[0] = self.text();
        data.ddi = self.random.below(self.plan.ddis) as u16;
        data.properties = self.random.below(6) as u8;
        data.triggers = self.random.below(32) as u8;
        data.value = self.random.draw() as i32;
        if !presentations.is_empty() && !self.random.one_in(3) {
            data.presentation = presentations[self.random.below(presentations.len())].id;
        }
        data
    }

    fn presentation(&mut self) -> Object {
        let any = self
            .random
            .between(LEAST_SCALE as usize, GREATEST_SCALE as usize) as u32;
        let mut presentation = Object::plain(Kind::Dvp, self.id());
        presentation.texts[0] = self.text();
        presentation.offset = self.random.draw() as i32;
        presentation.scale_bits = self.random.pick(&[LEAST_SCALE, any, any, GREATEST_SCALE]);
        presentation.decimals = self.random.below(8) as u8;
        presentation
    }
}

/// Records may come in any order.
fn in_some_order(random: &mut Random, mut objects: Vec<Object>) -> Vec<Object> {
    match random.below(5) {
        0 => objects.reverse(),
        1 => {
            for last in (1..objects.len()).rev() {
                objects.swap(last, random.below(last + 1));
            }
        }
        2 => objects.rotate_left(1),
        _ => {}
    }
    objects
}

/// A plain record of this kind, with an ID and a number of its own.
pub fn fresh(random: &mut Random, objects: &[Object], kind: Kind) -> Object {
    let id = match kind {
        Kind::Dvc => 0,
        _ => unused_id(random, objects),
    };
    let mut object = Object::plain(kind, id);
    object.number = unused_number(random, objects);
    object
}

/// An ID that no record carries, other than 65535.
pub fn unused_id(random: &mut Random, objects: &[Object]) -> u16 {
    loop {
        let id = random.between(1, IDS) as u16;
        if objects.iter().all(|object| object.id != id) {
            return id;
        }
    }
}

fn unused_number(random: &mut Random, objects: &[Object]) -> u16 {
    loop {
        let number = random.between(0, GREATEST_NUMBER.into()) as u16;
        if objects.iter().all(|object| object.number != number) {
            return number;
        }
    }
}

#[cfg(test)]
mod tests {
    use super::*;
    use crate::objects::pool_of;
    use second::Record;

    #[test]
    fn drawn_pools_have_no_fault() {
        for index in 0..2_000 {
            let pool = pool_of(&objects(&mut Random::for_item(11783, index)));
            let mut table = vec![Record::default(); pool.len() / 12];
            assert_eq!(second::check(&pool, &mut table, &mut []), Ok(0), "{index}");
        }
    }

    #[test]
    fn drawn_pools_have_one_element_of_type_device() {
        for index in 0..2_000 {
            let objects = objects(&mut Random::for_item(11783, index));
            let roots = objects.iter().filter(|it| it.is_root_element());
            assert_eq!(roots.count(), 1, "{index}");
        }
    }
}
