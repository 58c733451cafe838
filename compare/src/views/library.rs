//! The fields of a record, read through the proved static library's bindings,
//! and the second implementation's in the library's form.

use crate::library::{Of, UNWRITTEN};
use lachsbrille::c::{self, Device, Element, Presentation, ProcessData, Property, Span};
use second::{DeviceView, ElementView, PresentationView, ProcessDataView, PropertyView};
use std::ops::Range;

/// What a result holds before the call, so that a field which is not written is
/// noticed.
const NO_SPAN: Span = Span {
    from: UNWRITTEN,
    to: UNWRITTEN,
};
const BYTE: u8 = 0xA5;
const WORD: u16 = 0xA55A;
const LONG: u32 = 0xA55A_5AA5;

pub fn device(pool: &[u8], start: u16) -> Device {
    let mut device = Device {
        designator: NO_SPAN,
        version: NO_SPAN,
        name: u64::MAX,
        serial: NO_SPAN,
        structure: NO_SPAN,
        localization: NO_SPAN,
        extended: NO_SPAN,
    };
    c::read_device(&mut device, pool, start);
    device
}

pub fn element(pool: &[u8], start: u16) -> Element {
    let mut element = Element {
        element_type: BYTE,
        designator: NO_SPAN,
        number: WORD,
        parent: WORD,
        entries: WORD,
    };
    c::read_element(&mut element, pool, start);
    element
}

pub fn process_data(pool: &[u8], start: u16) -> ProcessData {
    let mut data = ProcessData {
        ddi: WORD,
        properties: BYTE,
        triggers: BYTE,
        designator: NO_SPAN,
        presentation: WORD,
    };
    c::read_process_data(&mut data, pool, start);
    data
}

pub fn property(pool: &[u8], start: u16) -> Property {
    let mut property = Property {
        ddi: WORD,
        value: LONG as i32,
        designator: NO_SPAN,
        presentation: WORD,
    };
    c::read_property(&mut property, pool, start);
    property
}

pub fn presentation(pool: &[u8], start: u16) -> Presentation {
    let mut presentation = Presentation {
        offset: LONG as i32,
        scale: LONG,
        decimals: BYTE,
        unit: NO_SPAN,
    };
    c::read_presentation(&mut presentation, pool, start);
    presentation
}

pub use c::read_entry as entry;

impl Of<Range<usize>> for Span {
    fn of(range: Range<usize>) -> Self {
        Span {
            from: range.start,
            to: range.end,
        }
    }
}

impl Of<DeviceView> for Device {
    fn of(view: DeviceView) -> Self {
        Device {
            designator: Span::of(view.designator),
            version: Span::of(view.version),
            name: view.name,
            serial: Span::of(view.serial),
            structure: Span::of(view.structure),
            localization: Span::of(view.localization),
            extended: Span::of(view.extended),
        }
    }
}

impl Of<ElementView> for Element {
    fn of(view: ElementView) -> Self {
        Element {
            element_type: view.element_type,
            designator: Span::of(view.designator),
            number: view.number,
            parent: view.parent,
            entries: view.entries,
        }
    }
}

impl Of<ProcessDataView> for ProcessData {
    fn of(view: ProcessDataView) -> Self {
        ProcessData {
            ddi: view.ddi,
            properties: view.properties,
            triggers: view.triggers,
            designator: Span::of(view.designator),
            presentation: view.presentation,
        }
    }
}

impl Of<PropertyView> for Property {
    fn of(view: PropertyView) -> Self {
        Property {
            ddi: view.ddi,
            value: view.value,
            designator: Span::of(view.designator),
            presentation: view.presentation,
        }
    }
}

impl Of<PresentationView> for Presentation {
    fn of(view: PresentationView) -> Self {
        Presentation {
            offset: view.offset,
            scale: view.scale_bits,
            decimals: view.decimals,
            unit: Span::of(view.unit),
        }
    }
}
