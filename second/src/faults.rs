//! Faults and the list they are reported to.

use crate::pool::{Record, NO_REFERENCE};

/// A breach of a rule. Records count from 1, and 0 is the whole pool. Lists
/// are in the order of record, rule and item; ID and parent follow from the
/// record, so that comparing them too makes no difference. With zeros in all
/// fields it stands for no fault.
#[derive(Clone, Copy, Debug, Default, PartialEq, Eq, PartialOrd, Ord)]
pub struct Fault {
    pub record: u16,
    pub rule: u8,
    /// A list has fewer than 32,768 entries, so 16 bits suffice for every item.
    pub item: u16,
    /// The record's own ID, also where the ID is the fault; 65535 for record 0.
    pub id: u16,
    /// The record's parent ID as its table entry has it; 65535 for record 0.
    pub parent: u16,
}

impl Fault {
    pub const OWN_ID: u8 = 1;
    pub const REPEATED_ID: u8 = 2;
    pub const SECOND_DEVICE: u8 = 3;
    pub const TEXT: u8 = 4;
    pub const RANGE: u8 = 5;
    pub const NAMES_NOTHING: u8 = 6;
    pub const WRONG_KIND: u8 = 7;
    pub const REPEATED_ELEMENT: u8 = 8;
    pub const ENDLESS_CHAIN: u8 = 9;
    pub const NO_DEVICE: u8 = 10;
    pub const NO_DEVICE_ELEMENT: u8 = 11;
    pub const REPEATED_DDI: u8 = 12;
}

/// What is being checked: a record with its table entry, or the whole pool.
#[derive(Clone, Copy)]
struct Subject<'a> {
    record: u16,
    /// `None` for the whole pool.
    entry: Option<&'a Record>,
}

impl Subject<'_> {
    #[inline]
    fn fault(self, rule: u8, item: u16) -> Fault {
        let (id, parent) = match self.entry {
            Some(entry) => (entry.id, entry.parent),
            None => (NO_REFERENCE, NO_REFERENCE),
        };
        Fault {
            record: self.record,
            rule,
            item,
            id,
            parent,
        }
    }
}

/// Counts faults and keeps as many of the first ones as the buffer holds.
pub struct FaultList<'a> {
    buffer: &'a mut [Fault],
    count: usize,
    subject: Subject<'a>,
}

impl<'a> FaultList<'a> {
    /// An empty list. Until the first record starts, faults are those of the
    /// whole pool.
    pub fn new(buffer: &'a mut [Fault]) -> Self {
        FaultList {
            buffer,
            count: 0,
            subject: Subject {
                record: 0,
                entry: None,
            },
        }
    }

    /// From here on, faults are those of this record.
    #[inline]
    pub fn start_record(&mut self, number: u16, entry: &'a Record) {
        self.subject = Subject {
            record: number,
            entry: Some(entry),
        };
    }

    #[inline]
    pub fn report_if(&mut self, breached: bool, rule: u8, item: u16) {
        if breached {
            self.report(rule, item);
        }
    }

    /// Cold, as most pools are sound: the path without a fault is to be fast.
    #[cold]
    pub fn report(&mut self, rule: u8, item: u16) {
        let subject = self.subject;
        if let Some(free) = self.buffer.get_mut(self.count) {
            *free = subject.fault(rule, item);
        }
        self.count += 1;
    }

    pub fn report_all(&mut self, rule: u8, items: &[u16]) {
        let subject = self.subject;
        let free = self.buffer.get_mut(self.count..).unwrap_or_default();
        for (free, &item) in free.iter_mut().zip(items) {
            *free = subject.fault(rule, item);
        }
        self.count += items.len();
    }

    pub fn count(&self) -> usize {
        self.count
    }
}

#[cfg(test)]
mod tests {
    use super::*;

    fn fault(record: u16, rule: u8, item: u16, id: u16, parent: u16) -> Fault {
        Fault {
            record,
            rule,
            item,
            id,
            parent,
        }
    }

    #[test]
    fn no_fault_is_zeros() {
        assert_eq!(Fault::default(), fault(0, 0, 0, 0, 0));
    }

    #[test]
    fn faults_name_their_record_and_end_with_the_buffer() {
        let entry = Record {
            id: 7,
            parent: 9,
            ..Record::default()
        };
        let next = Record {
            id: 8,
            parent: NO_REFERENCE,
            ..Record::default()
        };
        let all = [
            fault(0, 11, 1, 65_535, 65_535),
            fault(4, 6, 1, 7, 9),
            fault(4, 7, 2, 7, 9),
            fault(4, 7, 5, 7, 9),
            fault(5, 12, 3, 8, 65_535),
            fault(5, 12, 4, 8, 65_535),
        ];
        let untouched = fault(1, 2, 3, 4, 5);
        for fit in 0..9 {
            let mut buffer = vec![untouched; fit];
            let mut list = FaultList::new(&mut buffer);
            list.report_if(true, 11, 1);
            list.start_record(4, &entry);
            list.report_if(false, 5, 1);
            list.report(6, 1);
            list.report_all(7, &[2, 5]);
            list.start_record(5, &next);
            list.report_all(7, &[]);
            list.report_all(12, &[3, 4]);
            assert_eq!(list.count(), all.len());
            let written = fit.min(all.len());
            assert_eq!(buffer[..written], all[..written]);
            assert!(buffer[written..].iter().all(|it| *it == untouched));
        }
    }
}
