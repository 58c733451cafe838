//! Faults counted by their rule and by what they are of: the whole pool, or a
//! record of some kind.

use crate::grid::Grid;
use crate::objects::NO_REFERENCE;
use crate::shape::KINDS;
use second::{Fault, Kind, Record};

/// The whole pool, then the kinds as `KINDS` has them.
const SUBJECTS: [&str; 1 + KINDS.len()] = ["whole pool", "DVC", "DET", "DPD", "DPT", "DVP"];
/// The rules are numbered from 1.
const RULES: &[&str] = &[
    "rule 1", "rule 2", "rule 3", "rule 4", "rule 5", "rule 6", "rule 7", "rule 8", "rule 9",
    "rule 10", "rule 11", "rule 12",
];

pub struct Subjects {
    grid: Grid,
}

impl Subjects {
    /// For all faults of a pool.
    pub fn of_all(title: &'static str) -> Self {
        Subjects {
            grid: Grid::new(title, SUBJECTS, RULES, |subject, rule| {
                can_breach(subject, rule)
            }),
        }
    }

    /// For the first faults of pools. Rule 3 can't be the first: the second
    /// device breaches rule 1 or 2 as well, or the first one rule 1.
    pub fn of_first(title: &'static str) -> Self {
        Subjects {
            grid: Grid::new(title, SUBJECTS, RULES, |subject, rule| {
                rule != RULES[2] && can_breach(subject, rule)
            }),
        }
    }

    /// Counts a fault of the pool that has these records. One that can't be
    /// given is an error, and so are IDs other than its record's.
    pub fn count(&mut self, fault: &Fault, records: &[Record]) -> Result<(), String> {
        let (subject, ids) = match fault.record.checked_sub(1).map(usize::from) {
            None => (0, (NO_REFERENCE, NO_REFERENCE)),
            Some(index) => {
                let record = records.get(index);
                let record = record.ok_or_else(|| format!("{fault:?} of no record"))?;
                let place = KINDS.iter().position(|&kind| kind == record.kind);
                (1 + place.expect("a kind"), (record.id, record.parent))
            }
        };
        if (fault.id, fault.parent) != ids {
            return Err(format!("{fault:?} where ID and parent are {ids:?}"));
        }
        let rule = usize::from(fault.rule).checked_sub(1);
        let rule = rule.and_then(|place| RULES.get(place));
        let rule = rule.ok_or_else(|| format!("{fault:?} of no rule"))?;
        self.grid.count(subject, rule)
    }

    pub fn print(&self) {
        self.grid.print();
    }

    /// What can be at fault and never was.
    pub fn unseen(&self) -> Vec<String> {
        self.grid.unseen()
    }
}

/// Whether the rule is about such a record, or about the whole pool.
fn can_breach(subject: usize, rule: &str) -> bool {
    let kind = subject.checked_sub(1).map(|place| KINDS[place]);
    match rule {
        "rule 1" | "rule 2" | "rule 4" => kind.is_some(),
        "rule 3" => kind == Some(Kind::Dvc),
        "rule 5" => kind.is_some_and(|kind| kind != Kind::Dpt),
        "rule 6" | "rule 7" => matches!(kind, Some(Kind::Det | Kind::Dpd | Kind::Dpt)),
        "rule 8" | "rule 9" | "rule 12" => kind == Some(Kind::Det),
        _ => kind.is_none(),
    }
}

#[cfg(test)]
mod tests {
    use super::*;

    const RECORDS: [Record; 2] = [
        Record {
            start: 0,
            length: 31,
            kind: Kind::Dvc,
            id: 0,
            parent: NO_REFERENCE,
        },
        Record {
            start: 31,
            length: 13,
            kind: Kind::Det,
            id: 5,
            parent: 3,
        },
    ];

    fn fault(record: u16, rule: u8, id: u16, parent: u16) -> Fault {
        Fault {
            record,
            rule,
            item: 1,
            id,
            parent,
        }
    }

    #[test]
    fn a_fault_is_counted_if_it_can_be() {
        let mut all = Subjects::of_all("all");
        let mut first = Subjects::of_first("first");
        let due = all.unseen().len();
        assert_eq!(first.unseen().len(), due - 1);
        assert!(all.unseen().contains(&"all, DVC: rule 3".into()));
        let none = NO_REFERENCE;
        for (number, fault) in [
            fault(0, 11, none, none),
            fault(1, 4, 0, none),
            fault(2, 6, 5, 3),
        ]
        .into_iter()
        .enumerate()
        {
            assert_eq!(all.count(&fault, &RECORDS), Ok(()));
            assert_eq!(first.count(&fault, &RECORDS), Ok(()));
            assert_eq!(all.unseen().len(), due - number - 1);
        }
        let second_device = fault(1, 3, 0, none);
        assert_eq!(all.count(&second_device, &RECORDS), Ok(()));
        assert!(first.count(&second_device, &RECORDS).is_err());
    }

    #[test]
    fn another_subject_or_other_ids_are_an_error() {
        let mut all = Subjects::of_all("all");
        let none = NO_REFERENCE;
        for fault in [
            fault(0, 11, 0, 0),
            fault(0, 6, none, none),
            fault(1, 4, 0, 0),
            fault(1, 6, 0, none),
            fault(2, 6, 5, none),
            fault(2, 6, 3, 5),
            fault(2, 10, 5, 3),
            fault(2, 0, 5, 3),
            fault(2, 13, 5, 3),
            fault(3, 6, 5, 3),
        ] {
            assert!(all.count(&fault, &RECORDS).is_err(), "{fault:?}");
        }
    }
}
