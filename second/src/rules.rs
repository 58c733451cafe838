//! The rule table.

use crate::chains::Chains;
use crate::faults::{Fault, FaultList};
use crate::fields::{ddi, Device, Element, Presentation, ProcessData, Property};
use crate::numbers::{Carriers, Names, NumberSet};
use crate::pool::{read_pool_through, Kind, Record, Refusal, NO_REFERENCE};
use crate::texts::Text;
use std::cell::RefCell;
use std::ops::RangeInclusive;

const DEVICE_TYPE: u8 = 1;
const ELEMENT_TYPES: RangeInclusive<u8> = 1..=7;
pub(crate) const MAX_ELEMENT_NUMBER: u16 = 4_095;
pub(crate) const SETTABLE: u8 = 1 << 1;
const CONTROL_SOURCE: u8 = 1 << 2;
const PROPERTY_BITS: u8 = 0b111;
const TRIGGER_BITS: u8 = 0b1_1111;
/// Scales are compared by their bits: a NaN is outside the range.
pub(crate) const SCALE_BITS: RangeInclusive<u32> = 0x322B_CC77..=0x4CBE_BC20;
pub(crate) const MAX_DECIMALS: u8 = 7;
/// No byte of a label may have this value, except the last one of the
/// localization label.
const UNUSED_BYTE: u8 = 255;

/// Reads `pool` into `table` and checks it. Gives the count of all faults and
/// writes the first of them into `faults`, as many as it holds. A refusal
/// leaves table and faults as they were.
pub fn check(pool: &[u8], table: &mut [Record], faults: &mut [Fault]) -> Result<usize, Refusal> {
    read_and_check(pool, table, faults).map(|(_, faults)| faults)
}

/// As `check`, but gives the records along with the count of faults.
pub(crate) fn read_and_check<'a>(
    pool: &[u8],
    table: &'a mut [Record],
    faults: &mut [Fault],
) -> Result<(&'a [Record], usize), Refusal> {
    SCRATCH.with_borrow_mut(|scratch| {
        let records = read_pool_through(&mut scratch.found, pool, table)?;
        let faults = scratch.check(pool, records, FaultList::new(faults));
        Ok((records, faults))
    })
}

thread_local! {
    static SCRATCH: RefCell<Scratch> = RefCell::new(Scratch::new());
}

/// Memory that outlives a check, so that a check need not allocate it.
struct Scratch {
    found: Vec<Record>,
    carriers: Carriers,
    notes: Notes,
}

/// What a check notes about the records and entries it has seen.
struct Notes {
    element_numbers: NumberSet,
    /// DDIs of the list that is being checked.
    ddis: NumberSet,
    chains: Chains,
    /// Faults of the list that come after other faults of the same record.
    wrong_kinds: Vec<u16>,
    repeated_ddis: Vec<u16>,
}

impl Scratch {
    fn new() -> Self {
        Scratch {
            found: Vec::new(),
            carriers: Carriers::new(),
            notes: Notes {
                element_numbers: NumberSet::new(),
                ddis: NumberSet::new(),
                chains: Chains::default(),
                wrong_kinds: Vec::new(),
                repeated_ddis: Vec::new(),
            },
        }
    }

    fn check<'a>(
        &'a mut self,
        pool: &'a [u8],
        records: &'a [Record],
        faults: FaultList<'a>,
    ) -> usize {
        self.notes.element_numbers.clear();
        self.notes.chains.start(records.len());
        let mut checker = Checker {
            pool,
            names: self.carriers.names(records),
            notes: &mut self.notes,
            faults,
        };
        checker.whole_pool();
        checker.records();
        checker.faults.count()
    }
}

/// Checks one pool. The faults of a record are reported in the order of the
/// rules, and of the items within a rule.
struct Checker<'a> {
    pool: &'a [u8],
    names: Names<'a>,
    notes: &'a mut Notes,
    faults: FaultList<'a>,
}

impl<'a> Checker<'a> {
    fn whole_pool(&mut self) {
        let pool = self.pool;
        let records = self.names.records;
        let is_device = |record: &Record| record.kind == Kind::Dvc;
        let is_device_element = |record: &Record| {
            record.kind == Kind::Det && Element::type_of(record.bytes(pool)) == DEVICE_TYPE
        };
        let no_device = !records.iter().any(is_device);
        let no_element = !records.iter().any(is_device_element);
        self.faults.report_if(no_device, Fault::NO_DEVICE, 1);
        self.faults
            .report_if(no_element, Fault::NO_DEVICE_ELEMENT, 1);
    }

    fn records(&mut self) {
        let mut after_device = false;
        for (index, record) in self.names.records.iter().enumerate() {
            self.faults.start_record(index as u16 + 1, record);
            self.id(index, *record);
            let bytes = record.bytes(self.pool);
            match record.kind {
                Kind::Dvc => {
                    self.faults.report_if(after_device, Fault::SECOND_DEVICE, 1);
                    after_device = true;
                    self.device(&Device::of(bytes));
                }
                Kind::Det => self.element(index, &Element::of(bytes)),
                Kind::Dpd => self.process_data(&ProcessData::of(bytes)),
                Kind::Dpt => self.property(&Property::of(bytes)),
                Kind::Dvp => self.presentation(&Presentation::of(bytes)),
            }
        }
    }

    #[inline]
    fn id(&mut self, index: usize, record: Record) {
        let unfit = match record.kind {
            Kind::Dvc => record.id != 0,
            _ => matches!(record.id, 0 | NO_REFERENCE),
        };
        self.faults.report_if(unfit, Fault::OWN_ID, 1);
        let repeated = self.names.is_repeated(index);
        self.faults.report_if(repeated, Fault::REPEATED_ID, 1);
    }

    fn device(&mut self, device: &Device) {
        self.text(device.designator, 1);
        self.text(device.version, 2);
        self.text(device.serial, 3);
        let unused = |byte: &u8| *byte == UNUSED_BYTE;
        for (item, byte) in (1..).zip(&device.structure) {
            self.faults.report_if(unused(byte), Fault::RANGE, item);
        }
        let [used @ .., last] = &device.localization;
        for (item, byte) in (8..).zip(used) {
            self.faults.report_if(unused(byte), Fault::RANGE, item);
        }
        self.faults.report_if(!unused(last), Fault::RANGE, 14);
    }

    #[inline]
    fn element(&mut self, index: usize, element: &Element) {
        self.text(element.designator, 1);
        let no_type = !ELEMENT_TYPES.contains(&element.element_type);
        self.faults.report_if(no_type, Fault::RANGE, 1);
        let high = element.number > MAX_ELEMENT_NUMBER;
        self.faults.report_if(high, Fault::RANGE, 2);
        self.list(element);
        let repeated = !self.notes.element_numbers.insert(element.number);
        self.faults.report_if(repeated, Fault::REPEATED_ELEMENT, 1);
        let endless = self.chain_never_ends(index);
        self.faults.report_if(endless, Fault::ENDLESS_CHAIN, 1);
        let repeated = &self.notes.repeated_ddis;
        self.faults.report_all(Fault::REPEATED_DDI, repeated);
    }

    /// Rules 6 and 7 for the parent and the entries. Entries that breach rule
    /// 12 are only noted: other faults come before those.
    #[inline]
    fn list(&mut self, element: &Element) {
        self.notes.ddis.clear();
        self.notes.wrong_kinds.clear();
        self.notes.repeated_ddis.clear();
        match self.names.named_by(element.parent).map(|named| named.kind) {
            Some(Kind::Dvc | Kind::Det) => {}
            Some(_) => self.notes.wrong_kinds.push(1),
            None => self.faults.report(Fault::NAMES_NOTHING, 1),
        }
        for (item, id) in (2..).zip(element.entries()) {
            self.entry(item, id);
        }
        let wrong_kinds = &self.notes.wrong_kinds;
        self.faults.report_all(Fault::WRONG_KIND, wrong_kinds);
    }

    #[inline]
    fn entry(&mut self, item: u16, id: u16) {
        match self.names.named_by(id) {
            Some(data) if matches!(data.kind, Kind::Dpd | Kind::Dpt) => {
                if !self.notes.ddis.insert(ddi(data.bytes(self.pool))) {
                    self.notes.repeated_ddis.push(item);
                }
            }
            Some(_) => self.notes.wrong_kinds.push(item),
            None => self.faults.report(Fault::NAMES_NOTHING, item),
        }
    }

    fn chain_never_ends(&mut self, index: usize) -> bool {
        let names = self.names;
        let parent = |child: usize| {
            let named = names.index_named_by(names.records[child].parent)?;
            (names.records[named].kind == Kind::Det).then_some(named)
        };
        self.notes.chains.never_ends(index, parent)
    }

    #[inline]
    fn process_data(&mut self, data: &ProcessData) {
        self.text(data.designator, 1);
        let high = data.properties & !PROPERTY_BITS != 0;
        self.faults.report_if(high, Fault::RANGE, 1);
        let clash = SETTABLE | CONTROL_SOURCE;
        let clashing = data.properties & clash == clash;
        self.faults.report_if(clashing, Fault::RANGE, 2);
        let high = data.triggers & !TRIGGER_BITS != 0;
        self.faults.report_if(high, Fault::RANGE, 3);
        self.presentation_of_data(data.presentation);
    }

    #[inline]
    fn property(&mut self, property: &Property) {
        self.text(property.designator, 1);
        self.presentation_of_data(property.presentation);
    }

    #[inline]
    fn presentation_of_data(&mut self, id: u16) {
        match self.names.named_by(id).map(|named| named.kind) {
            Some(Kind::Dvp) => {}
            Some(_) => self.faults.report(Fault::WRONG_KIND, 1),
            None => {
                let names_none = id != NO_REFERENCE;
                self.faults.report_if(names_none, Fault::NAMES_NOTHING, 1);
            }
        }
    }

    #[inline]
    fn presentation(&mut self, presentation: &Presentation) {
        self.text(presentation.unit, 1);
        let unfit_scale = !SCALE_BITS.contains(&presentation.scale_bits);
        self.faults.report_if(unfit_scale, Fault::RANGE, 1);
        let many_decimals = presentation.decimals > MAX_DECIMALS;
        self.faults.report_if(many_decimals, Fault::RANGE, 2);
    }

    #[inline]
    fn text(&mut self, text: Text, item: u16) {
        self.faults.report_if(!text.is_sound(), Fault::TEXT, item);
    }
}
