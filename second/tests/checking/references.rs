//! Rules 6 and 7: references that name nothing or a wrong kind.

use crate::pools::{faults, faults_after_device, pool, Bytes, Det, Dpd, Dpt, Dvc, Dvp};

const NO_FAULTS: [(u16, u8, u16); 0] = [];
const NOTHING: u8 = 6;
const WRONG_KIND: u8 = 7;

/// Targets of a reference: a record of each kind, an ID that none carries,
/// and 65535 with and without a carrier.
struct Targets {
    data: Dpd<'static>,
    property: Dpt<'static>,
    presentation: Dvp<'static>,
    highest: Dvp<'static>,
}

impl Targets {
    fn new() -> Self {
        Targets {
            data: Dpd::default(),
            property: Dpt::default(),
            presentation: Dvp::default(),
            highest: Dvp {
                id: 65_534,
                ..Dvp::default()
            },
        }
    }

    /// The faults of a record, which is number 3, before the targets.
    fn faults(&self, record: &dyn Bytes) -> Vec<(u16, u8, u16)> {
        faults_after_device(&[
            record,
            &self.data,
            &self.property,
            &self.presentation,
            &self.highest,
        ])
    }
}

#[test]
fn a_parent_names_a_device_or_an_element() {
    let cases = [
        (0, None),
        (1, None),
        (20, Some(WRONG_KIND)),
        (30, Some(WRONG_KIND)),
        (40, Some(WRONG_KIND)),
        (9, Some(NOTHING)),
        (65_534, Some(WRONG_KIND)),
        (65_535, Some(NOTHING)),
    ];
    for (parent, rule) in cases {
        let element = Det {
            id: 2,
            number: 1,
            parent,
            ..Det::default()
        };
        let expected = rule.map(|rule| (3, rule, 1));
        assert_eq!(Targets::new().faults(&element), Vec::from_iter(expected));
    }
}

#[test]
fn an_entry_names_process_data_or_a_property() {
    let cases = [
        (0, Some(WRONG_KIND)),
        (1, Some(WRONG_KIND)),
        (2, Some(WRONG_KIND)),
        (20, None),
        (30, None),
        (40, Some(WRONG_KIND)),
        (9, Some(NOTHING)),
        (65_535, Some(NOTHING)),
    ];
    for (entry, rule) in cases {
        let element = Det {
            id: 2,
            number: 1,
            entries: &[entry],
            ..Det::default()
        };
        let expected = rule.map(|rule| (3, rule, 2));
        assert_eq!(Targets::new().faults(&element), Vec::from_iter(expected));
    }
}

#[test]
fn a_presentation_is_65535_or_names_one() {
    let cases = [
        (0, Some(WRONG_KIND)),
        (1, Some(WRONG_KIND)),
        (2, Some(WRONG_KIND)),
        (20, Some(WRONG_KIND)),
        (30, Some(WRONG_KIND)),
        (40, None),
        (9, Some(NOTHING)),
        (65_534, None),
        (65_535, None),
    ];
    for (presentation, rule) in cases {
        let data = Dpd {
            id: 2,
            presentation,
            ..Dpd::default()
        };
        let property = Dpt {
            id: 2,
            presentation,
            ..Dpt::default()
        };
        let expected = Vec::from_iter(rule.map(|rule| (3, rule, 1)));
        assert_eq!(Targets::new().faults(&data), expected);
        assert_eq!(Targets::new().faults(&property), expected);
    }
}

#[test]
fn the_id_65535_names_nothing_though_a_record_carries_it() {
    let carrier = Dpd {
        id: 65_535,
        ..Dpd::default()
    };
    let element = Det {
        id: 2,
        number: 1,
        entries: &[65_535],
        ..Det::default()
    };
    let data = Dpd::default();
    let found = faults_after_device(&[&carrier, &element, &data]);
    assert_eq!(found, [(3, 1, 1), (4, 6, 2)]);
}

#[test]
fn a_reference_may_name_an_earlier_or_a_later_record() {
    let element = Det {
        id: 2,
        number: 1,
        entries: &[20],
        ..Det::default()
    };
    let data = Dpd {
        presentation: 40,
        ..Dpd::default()
    };
    let presentation = Dvp::default();
    let orders: [[&dyn Bytes; 3]; 3] = [
        [&element, &data, &presentation],
        [&presentation, &data, &element],
        [&data, &element, &presentation],
    ];
    for records in orders {
        assert_eq!(faults_after_device(&records), NO_FAULTS);
    }
}

#[test]
fn an_id_names_its_first_carrier() {
    let element = Det {
        id: 2,
        number: 1,
        entries: &[20],
        ..Det::default()
    };
    let data = Dpd::default();
    let presentation = Dvp {
        id: 20,
        ..Dvp::default()
    };
    let found = faults_after_device(&[&element, &data, &presentation]);
    assert_eq!(found, [(5, 2, 1)]);
    let found = faults_after_device(&[&element, &presentation, &data]);
    assert_eq!(found, [(3, 7, 2), (5, 2, 1)]);
}

#[test]
fn a_record_that_breaches_rule_1_is_named_like_others() {
    let data = Dpd {
        id: 0,
        ..Dpd::default()
    };
    let element = Det {
        entries: &[0],
        ..Det::root()
    };
    // Here 0 names the process data, which cannot be a parent.
    let found = faults(&pool(&[&data, &Dvc::default(), &element]));
    assert_eq!(found, [(1, 1, 1), (2, 2, 1), (3, 7, 1)]);
}
