//! Faults in the pools they were found in.

use crate::objects::{named, Object};
use second::{Fault, Kind};
use std::str;

/// A chain or ring of at least this many steps is a long one.
pub const MANY_STEPS: usize = 100;

/// A pool with its faults.
pub struct Scene<'a> {
    objects: &'a [Object],
    faults: &'a [Fault],
    /// For each record the device element that is its parent, if it has one.
    parents: Vec<Option<usize>>,
}

/// A fault in the pool it was found in.
pub struct Sighting<'a> {
    pub objects: &'a [Object],
    pub fault: Fault,
    /// Index of the record; also 0 if the fault is the whole pool's.
    index: usize,
    /// The faults before this one.
    before: &'a [Fault],
    pub chain: Chain,
    /// Under rule 12, the place of the first entry with the same DDI and of
    /// the one at fault.
    pub places: (usize, usize),
}

/// A chain of parents: the steps before it ends or enters a ring, and the
/// ring's length.
#[derive(Clone, Copy, Default)]
pub struct Chain {
    pub tail: usize,
    pub ring: Option<usize>,
}

impl<'a> Scene<'a> {
    pub fn new(objects: &'a [Object], faults: &'a [Fault]) -> Self {
        let parent = |object: &Object| {
            let parent = named(objects, object.parent)?;
            let of_element = object.kind == Kind::Det && objects[parent].kind == Kind::Det;
            of_element.then_some(parent)
        };
        Scene {
            objects,
            faults,
            parents: objects.iter().map(parent).collect(),
        }
    }

    pub fn sighting(&self, position: usize) -> Sighting<'a> {
        let fault = self.faults[position];
        let index = usize::from(fault.record).saturating_sub(1);
        Sighting {
            objects: self.objects,
            fault,
            index,
            before: &self.faults[..position],
            chain: match fault.rule {
                9 => self.chain(index),
                _ => Chain::default(),
            },
            places: match fault.rule {
                12 => self.places(index, usize::from(fault.item) - 2),
                _ => (0, 0),
            },
        }
    }

    fn chain(&self, start: usize) -> Chain {
        let mut steps_to = vec![None; self.objects.len()];
        let (mut index, mut steps) = (start, 0);
        loop {
            if let Some(tail) = steps_to[index] {
                let ring = Some(steps - tail);
                return Chain { tail, ring };
            }
            steps_to[index] = Some(steps);
            let Some(parent) = self.parents[index] else {
                let (tail, ring) = (steps, None);
                return Chain { tail, ring };
            };
            index = parent;
            steps += 1;
        }
    }

    fn places(&self, index: usize, later: usize) -> (usize, usize) {
        let ddi = |entry: u16| {
            let data = &self.objects[named(self.objects, entry)?];
            data.is_data().then_some(data.ddi)
        };
        let entries = &self.objects[index].entries;
        let repeated = ddi(entries[later]);
        let earlier = entries.iter().position(|&entry| ddi(entry) == repeated);
        (earlier.unwrap_or(later), later)
    }

    pub fn long_chains(&self) -> u64 {
        let elements = self.objects.iter().filter(|it| it.kind == Kind::Det);
        if elements.count() <= MANY_STEPS {
            return 0;
        }
        let chains = (0..self.objects.len()).map(|index| self.chain(index));
        chains
            .filter(|it| it.ring.is_none() && it.tail >= MANY_STEPS)
            .count() as u64
    }
}

impl Sighting<'_> {
    pub fn object(&self) -> &Object {
        &self.objects[self.index]
    }

    pub fn is(&self, kind: Kind) -> bool {
        self.object().kind == kind
    }

    /// The kind of the first record with this one's ID.
    pub fn first_kind(&self) -> Kind {
        let first = self.objects.iter().find(|it| it.id == self.object().id);
        first.map_or(self.object().kind, |it| it.kind)
    }

    pub fn text(&self) -> &[u8] {
        &self.object().texts[usize::from(self.fault.item) - 1]
    }

    pub fn characters(&self) -> Option<usize> {
        let text = str::from_utf8(self.text()).ok()?;
        Some(text.chars().count())
    }

    pub fn is_scale(&self) -> bool {
        self.is(Kind::Dvp) && self.fault.item == 1
    }

    /// The ID in the field that the item stands for.
    pub fn reference(&self) -> u16 {
        let object = self.object();
        match (object.kind, self.fault.item) {
            (Kind::Det, 1) => object.parent,
            (Kind::Det, item) => object.entries[usize::from(item) - 2],
            _ => object.presentation,
        }
    }

    pub fn names(&self, kind: Kind) -> bool {
        kind_named(self.objects, self.reference()) == Some(kind)
    }

    /// Whether a record with the referenced ID is of a right kind, but not the
    /// first with this ID.
    pub fn has_right_carrier(&self) -> bool {
        let right: &[Kind] = match (self.object().kind, self.fault.item) {
            (Kind::Det, 1) => &[Kind::Dvc, Kind::Det],
            (Kind::Det, _) => &[Kind::Dpd, Kind::Dpt],
            _ => &[Kind::Dvp],
        };
        let id = self.reference();
        let mut carriers = self.objects.iter().filter(|it| it.id == id);
        carriers.any(|it| right.contains(&it.kind))
    }

    /// Whether the same record breaches this lower rule at a later item.
    pub fn is_before_item_of(&self, rule: u8) -> bool {
        let Fault { record, item, .. } = self.fault;
        let mut others = self
            .before
            .iter()
            .rev()
            .take_while(|it| it.record == record);
        others.any(|it| it.rule == rule && it.item > item)
    }

    pub fn entry_kind(&self, place: usize) -> Option<Kind> {
        kind_named(self.objects, self.object().entries[place])
    }

    pub fn any_between(&self, holds: impl Fn(Option<Kind>) -> bool) -> bool {
        let (earlier, later) = self.places;
        (earlier + 1..later).any(|place| holds(self.entry_kind(place)))
    }
}

fn kind_named(objects: &[Object], id: u16) -> Option<Kind> {
    named(objects, id).map(|index| objects[index].kind)
}
