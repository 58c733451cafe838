//! The fields of a record, read from the pool at the record's start.

use crate::c::{self, Record, Span};
use crate::{Kind, Presentation};

/// As a presentation's ID: there is no presentation.
pub const NO_ID: u16 = 65_535;

/// The property bits of a process data.
pub mod properties {
    pub const DEFAULT_SET: u8 = 1;
    pub const SETTABLE: u8 = 1 << 1;
    pub const CONTROL_SOURCE: u8 = 1 << 2;
}

/// The trigger methods of a process data.
pub mod triggers {
    pub const TIME: u8 = 1;
    pub const DISTANCE: u8 = 1 << 1;
    pub const THRESHOLD: u8 = 1 << 2;
    pub const ON_CHANGE: u8 = 1 << 3;
    pub const TOTAL: u8 = 1 << 4;
}

/// The fields of a record, by its kind.
#[derive(Clone, Copy, Debug, PartialEq)]
pub enum Object<'pool> {
    Device(Device<'pool>),
    DeviceElement(DeviceElement<'pool>),
    ProcessData(ProcessData<'pool>),
    Property(Property<'pool>),
    ValuePresentation(ValuePresentation<'pool>),
}

impl Record {
    /// The fields of this record of the pool. `None` for an entry that no call
    /// has written, and if a text would not lie within the pool: then the table
    /// was filled from another pool.
    pub fn object<'pool>(&self, pool: &'pool [u8]) -> Option<Object<'pool>> {
        let start = self.start;
        Some(match self.kind()? {
            Kind::Device => Object::Device(Device::read(pool, start)?),
            Kind::DeviceElement => Object::DeviceElement(DeviceElement::read(pool, start)?),
            Kind::ProcessData => Object::ProcessData(ProcessData::read(pool, start)?),
            Kind::Property => Object::Property(Property::read(pool, start)?),
            Kind::ValuePresentation => {
                Object::ValuePresentation(ValuePresentation::read(pool, start)?)
            }
        })
    }
}

/// A device (DVC). Texts and labels are parts of the pool.
#[derive(Clone, Copy, Debug, PartialEq, Eq)]
#[non_exhaustive]
pub struct Device<'pool> {
    pub designator: &'pool [u8],
    /// Software version.
    pub version: &'pool [u8],
    /// NAME of the client, its first byte lowest.
    pub name: u64,
    /// Serial number.
    pub serial: &'pool [u8],
    /// Structure label, 7 bytes.
    pub structure: &'pool [u8],
    /// Localization label, 7 bytes.
    pub localization: &'pool [u8],
    /// Extended structure label.
    pub extended: &'pool [u8],
}

impl<'pool> Device<'pool> {
    /// The device that starts at this place. Nothing is checked: the bytes are
    /// read as though a whole device stood there, and those past the pool's end
    /// as 0. `None` if a text or label would not lie within the pool.
    pub fn read(pool: &'pool [u8], start: u16) -> Option<Self> {
        let mut fields = c::Device::default();
        c::read_device(&mut fields, pool, start);
        Some(Device {
            designator: part(pool, fields.designator)?,
            version: part(pool, fields.version)?,
            name: fields.name,
            serial: part(pool, fields.serial)?,
            structure: part(pool, fields.structure)?,
            localization: part(pool, fields.localization)?,
            extended: part(pool, fields.extended)?,
        })
    }
}

/// A device element (DET).
#[derive(Clone, Copy, Debug, PartialEq, Eq)]
#[non_exhaustive]
pub struct DeviceElement<'pool> {
    /// 1 device, 2 function, 3 bin, 4 section, 5 unit, 6 connector, 7
    /// navigation reference.
    pub element_type: u8,
    pub designator: &'pool [u8],
    /// Element number.
    pub number: u16,
    /// ID of the device or device element that it belongs to.
    pub parent: u16,
    /// How many entries its list has.
    pub count: u16,
    pool: &'pool [u8],
    start: u16,
}

impl<'pool> DeviceElement<'pool> {
    /// The device element that starts at this place, read as [`Device::read`]
    /// reads a device.
    pub fn read(pool: &'pool [u8], start: u16) -> Option<Self> {
        let mut fields = c::Element::default();
        c::read_element(&mut fields, pool, start);
        Some(DeviceElement {
            element_type: fields.element_type,
            designator: part(pool, fields.designator)?,
            number: fields.number,
            parent: fields.parent,
            count: fields.entries,
            pool,
            start,
        })
    }

    /// The IDs in its list; in an accepted pool each is that of a process data
    /// or property.
    pub fn entries(&self) -> impl Iterator<Item = u16> + 'pool {
        let (pool, start) = (self.pool, self.start);
        (0..self.count).map(move |n| c::read_entry(pool, start, n))
    }
}

/// A device process data (DPD).
#[derive(Clone, Copy, Debug, PartialEq, Eq)]
#[non_exhaustive]
pub struct ProcessData<'pool> {
    pub ddi: u16,
    /// Any combination of the bits in [`properties`].
    pub properties: u8,
    /// Any combination of the bits in [`triggers`].
    pub triggers: u8,
    pub designator: &'pool [u8],
    /// ID of its value presentation.
    pub presentation: Option<u16>,
}

impl<'pool> ProcessData<'pool> {
    /// The process data that starts at this place, read as [`Device::read`]
    /// reads a device.
    pub fn read(pool: &'pool [u8], start: u16) -> Option<Self> {
        let mut fields = c::ProcessData::default();
        c::read_process_data(&mut fields, pool, start);
        Some(ProcessData {
            ddi: fields.ddi,
            properties: fields.properties,
            triggers: fields.triggers,
            designator: part(pool, fields.designator)?,
            presentation: presentation(fields.presentation),
        })
    }
}

/// A device property (DPT).
#[derive(Clone, Copy, Debug, PartialEq, Eq)]
#[non_exhaustive]
pub struct Property<'pool> {
    pub ddi: u16,
    pub value: i32,
    pub designator: &'pool [u8],
    /// ID of its value presentation.
    pub presentation: Option<u16>,
}

impl<'pool> Property<'pool> {
    /// The property that starts at this place, read as [`Device::read`] reads
    /// a device.
    pub fn read(pool: &'pool [u8], start: u16) -> Option<Self> {
        let mut fields = c::Property::default();
        c::read_property(&mut fields, pool, start);
        Some(Property {
            ddi: fields.ddi,
            value: fields.value,
            designator: part(pool, fields.designator)?,
            presentation: presentation(fields.presentation),
        })
    }
}

/// A device value presentation (DVP).
#[derive(Clone, Copy, Debug, PartialEq)]
#[non_exhaustive]
pub struct ValuePresentation<'pool> {
    /// How a value is shown, for [`displayed`](crate::displayed).
    pub presentation: Presentation,
    /// Unit text.
    pub unit: &'pool [u8],
}

impl<'pool> ValuePresentation<'pool> {
    /// The value presentation that starts at this place, read as
    /// [`Device::read`] reads a device.
    pub fn read(pool: &'pool [u8], start: u16) -> Option<Self> {
        let mut fields = c::Presentation::default();
        c::read_presentation(&mut fields, pool, start);
        Some(ValuePresentation {
            presentation: Presentation {
                offset: fields.offset,
                scale: f32::from_bits(fields.scale),
                decimals: fields.decimals,
            },
            unit: part(pool, fields.unit)?,
        })
    }
}

fn part(pool: &[u8], span: Span) -> Option<&[u8]> {
    pool.get(span.from..span.to)
}

fn presentation(id: u16) -> Option<u16> {
    (id != NO_ID).then_some(id)
}

#[cfg(test)]
mod tests {
    use super::*;
    use crate::pools::{named, walked};
    use crate::{displayed, read};
    use std::vec::Vec;

    #[test]
    fn every_field_is_read() {
        let pool = named();
        let device = Device::read(&pool, 0).unwrap();
        assert_eq!(device.designator, b"Spritze");
        assert_eq!(device.designator.as_ptr(), &pool[6]);
        assert_eq!(device.version, b"v2");
        assert_eq!(device.name, 0x8877_6655_4433_2211);
        assert_eq!(device.serial, b"123");
        assert_eq!(device.structure, [1, 2, 3, 4, 5, 6, 7]);
        assert_eq!(device.localization, [0x65, 0x6E, 1, 2, 3, 4, 0xFF]);
        assert_eq!(device.extended, [8, 9, 10]);
    }

    #[test]
    fn a_device_is_walked() {
        let pool = walked();
        let mut table = [Record::default(); 5];
        assert_eq!(read(&pool, &mut table), Ok(5));
        let objects = table.map(|record| record.object(&pool).unwrap());
        let Object::DeviceElement(element) = objects[1] else {
            panic!("{:?}", objects[1]);
        };
        assert_eq!(
            (element.element_type, element.designator),
            (1, &b"Boom"[..])
        );
        assert_eq!((element.number, element.parent), (0x0102, 0));
        assert_eq!(element.entries().collect::<Vec<_>>(), [0x0203, 0x0304]);

        let Object::ProcessData(data) = objects[2] else {
            panic!("{:?}", objects[2]);
        };
        assert_eq!((data.ddi, data.designator), (0x0405, &b"Rate"[..]));
        assert_eq!(data.properties, properties::SETTABLE);
        assert_eq!(data.triggers, triggers::TIME | triggers::TOTAL);
        assert_eq!(data.presentation, Some(0x0506));

        let Object::Property(property) = objects[3] else {
            panic!("{:?}", objects[3]);
        };
        assert_eq!((property.ddi, property.value), (0x0607, -1_000));
        assert_eq!(
            (property.designator, property.presentation),
            (&b"Width"[..], None)
        );

        let Object::ValuePresentation(shown) = objects[4] else {
            panic!("{:?}", objects[4]);
        };
        assert_eq!(shown.unit, "l/ha".as_bytes());
        let Presentation {
            offset,
            scale,
            decimals,
        } = shown.presentation;
        assert_eq!((offset, scale, decimals), (-20, 0.5, 2));
        assert_eq!(displayed(100, shown.presentation), Ok(40.0));
    }

    #[test]
    fn a_text_that_is_not_in_the_pool_is_none() {
        let pool = named();
        // Cut inside the designator, whose length byte is still there.
        assert_eq!(Device::read(&pool[..10], 0), None);
        assert_eq!(Device::read(&[], 65_535), None);
        assert_eq!(DeviceElement::read(&pool, u16::MAX), None);
        assert_eq!(Record::default().object(&pool), None);
    }
}
