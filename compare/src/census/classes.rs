//! The classes of faults that have to occur in a run.

use super::sighting::{Chain, Sighting, MANY_STEPS};
use super::Census;
use crate::objects::{Object, GREATEST_NUMBER, GREATEST_SCALE, LEAST_SCALE, NO_REFERENCE};
use crate::shape::KINDS;
use crate::wording::MARK;
use second::Kind;
use std::str;

/// Items from here on need more than a byte.
const WIDE_ITEM: u16 = 256;

impl Census {
    pub(super) fn add_all(&mut self) {
        self.add_own_ids();
        self.add_repeated_ids();
        self.add(3, "DVC", |_| true);
        self.add_texts();
        self.add_ranges();
        self.add_scales();
        self.add_references();
        self.add_targets();
        self.add_elements();
        self.add_chains();
        self.add_whole_pool();
        self.add_lists();
        self.add_orders();
    }

    fn add_own_ids(&mut self) {
        self.add(1, "DVC", |it| it.is(Kind::Dvc));
        for kind in &KINDS[1..] {
            for id in [0, 65_535] {
                let name = format!("{} {id}", kind.mark());
                self.add(1, name, move |it| it.is(*kind) && it.object().id == id);
            }
        }
    }

    fn add_repeated_ids(&mut self) {
        for kind in KINDS {
            let name = format!("{} after its kind", kind.mark());
            self.add(2, name, move |it| it.is(kind) && it.first_kind() == kind);
            let name = format!("{} after another", kind.mark());
            self.add(2, name, move |it| it.is(kind) && it.first_kind() != kind);
        }
        self.add(2, "65535", |it| it.object().id == 65_535);
    }

    fn add_texts(&mut self) {
        for kind in KINDS {
            for item in 1..=Object::plain(kind, 0).text_count() as u16 {
                self.add_item(4, kind, item);
            }
        }
        self.add(4, "malformed", |it| str::from_utf8(it.text()).is_err());
        self.add(4, "with the mark", |it| it.text().starts_with(MARK));
        self.add(4, "33 characters", |it| it.characters() == Some(33));
        self.add(4, "over 33 characters", |it| it.characters() > Some(33));
    }

    fn add_item(&mut self, rule: u8, kind: Kind, item: u16) {
        let name = format!("{} {item}", kind.mark());
        self.add(rule, name, move |it| it.is(kind) && it.fault.item == item);
    }

    fn add_ranges(&mut self) {
        let kinds = [
            (Kind::Dvc, 14),
            (Kind::Det, 2),
            (Kind::Dpd, 3),
            (Kind::Dvp, 2),
        ];
        for (kind, items) in kinds {
            for item in 1..=items {
                self.add_item(5, kind, item);
            }
        }
    }

    fn add_scales(&mut self) {
        let mut add = |name, holds: fn(u32) -> bool| {
            self.add(5, name, move |it| {
                it.is_scale() && holds(it.object().scale_bits)
            });
        };
        add("scale 0", |bits| bits == 0);
        add("scale just below", |bits| bits == LEAST_SCALE - 1);
        add("scale just above", |bits| bits == GREATEST_SCALE + 1);
        add("infinite scale", |bits| f32::from_bits(bits).is_infinite());
        add("scale NaN", |bits| f32::from_bits(bits).is_nan());
        add("negative scale", |bits| f32::from_bits(bits) < 0.0);
    }

    fn add_references(&mut self) {
        for rule in [6, 7] {
            self.add_item(rule, Kind::Det, 1);
            self.add_item(rule, Kind::Det, 2);
            self.add_later_items(rule, 3);
            self.add_item(rule, Kind::Dpd, 1);
            self.add_item(rule, Kind::Dpt, 1);
        }
        let to_65535 = |it: &Sighting| it.reference() == NO_REFERENCE;
        let carried = |it: &Sighting| it.objects.iter().any(|it| it.id == NO_REFERENCE);
        self.add(6, "parent 65535", move |it| {
            it.fault.item == 1 && to_65535(it)
        });
        self.add(6, "entry 65535", move |it| {
            it.fault.item > 1 && to_65535(it)
        });
        self.add(6, "65535 though carried", move |it| {
            to_65535(it) && carried(it)
        });
    }

    fn add_later_items(&mut self, rule: u8, from: u16) {
        self.add(rule, format!("DET {from} on"), move |it| {
            it.is(Kind::Det) && (from..WIDE_ITEM).contains(&it.fault.item)
        });
        self.add(rule, format!("DET {WIDE_ITEM} on"), |it| {
            it.is(Kind::Det) && it.fault.item >= WIDE_ITEM
        });
    }

    fn add_targets(&mut self) {
        for kind in [Kind::Dpd, Kind::Dpt, Kind::Dvp] {
            self.add(7, format!("parent {}", kind.mark()), move |it| {
                it.is(Kind::Det) && it.fault.item == 1 && it.names(kind)
            });
        }
        for kind in [Kind::Dvc, Kind::Det, Kind::Dvp] {
            self.add(7, format!("entry {}", kind.mark()), move |it| {
                it.is(Kind::Det) && it.fault.item > 1 && it.names(kind)
            });
        }
        for kind in [Kind::Dvc, Kind::Det, Kind::Dpd, Kind::Dpt] {
            self.add(7, format!("presentation {}", kind.mark()), move |it| {
                it.object().is_data() && it.names(kind)
            });
        }
        self.add(7, "a later carrier is right", |it| it.has_right_carrier());
    }

    fn add_elements(&mut self) {
        let high = |it: &Sighting| it.object().number > GREATEST_NUMBER;
        self.add(8, "up to 4095", move |it| !high(it));
        self.add(8, "over 4095", high);
    }

    fn add_chains(&mut self) {
        let mut add = |name, holds: fn(Chain) -> bool| {
            self.add(9, name, move |it| holds(it.chain));
        };
        add("own parent", |it| it.ring == Some(1) && it.tail == 0);
        add("ring of 2", |it| it.ring == Some(2) && it.tail == 0);
        add("longer ring", |it| it.ring > Some(2) && it.tail == 0);
        add("ring of many", |it| {
            it.ring >= Some(MANY_STEPS) && it.tail == 0
        });
        add("tail into a ring", |it| it.tail > 0);
        add("tail of many steps", |it| it.tail >= MANY_STEPS);
    }

    fn add_whole_pool(&mut self) {
        let has_element = |it: &Sighting| it.objects.iter().any(|it| it.kind == Kind::Det);
        self.add(10, "no DVC", |_| true);
        self.add(11, "no DET", move |it| !has_element(it));
        self.add(11, "no DET of type 1", has_element);
    }

    fn add_lists(&mut self) {
        for (before, after) in [
            (Kind::Dpd, Kind::Dpd),
            (Kind::Dpd, Kind::Dpt),
            (Kind::Dpt, Kind::Dpd),
            (Kind::Dpt, Kind::Dpt),
        ] {
            let name = format!("{} after {}", after.mark(), before.mark());
            self.add(12, name, move |it| {
                let (earlier, later) = it.places;
                it.entry_kind(earlier) == Some(before) && it.entry_kind(later) == Some(after)
            });
        }
        self.add_item(12, Kind::Det, 3);
        self.add_later_items(12, 4);
        self.add(12, "same ID", |it| {
            let (earlier, later) = it.places;
            it.object().entries[earlier] == it.object().entries[later]
        });
        self.add(12, "nothing named between", |it| {
            it.any_between(|kind| kind.is_none())
        });
        self.add(12, "wrong kind between", |it| {
            it.any_between(|kind| kind.is_some_and(|it| !matches!(it, Kind::Dpd | Kind::Dpt)))
        });
    }

    /// Faults that a checker would list in the wrong order if it wrote each one
    /// as soon as it finds it.
    fn add_orders(&mut self) {
        for (rule, lower) in [(7, 6), (12, 6), (12, 7)] {
            let name = format!("at an item before one of rule {lower}");
            self.add(rule, name, move |it| it.is_before_item_of(lower));
        }
    }
}
