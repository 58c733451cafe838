//! The known fields of a record that was written from an object.

use crate::objects::Object;
use second::{
    read_device, read_element, read_entry, read_presentation, read_process_data, read_property,
    Kind,
};
use std::ops::Range;

/// Whether all fields of the record that starts here are those of the object.
pub fn are_of(object: &Object, pool: &[u8], start: u16) -> bool {
    let is = |place: Range<usize>, bytes: &[u8]| pool.get(place) == Some(bytes);
    let text = &object.texts[0];
    match object.kind {
        Kind::Dvc => {
            let device = read_device(pool, start);
            is(device.designator, text)
                && is(device.version, &object.texts[1])
                && device.name.to_le_bytes() == object.name
                && is(device.serial, &object.texts[2])
                && is(device.structure, &object.structure)
                && is(device.localization, &object.localization)
                && is(device.extended, &object.extended)
        }
        Kind::Det => {
            let element = read_element(pool, start);
            let entries = (0..element.entries).map(|n| read_entry(pool, start, n));
            is(element.designator, text)
                && element.element_type == object.element_type
                && element.number == object.number
                && element.parent == object.parent
                && entries.eq(object.entries.iter().copied())
        }
        Kind::Dpd => {
            let data = read_process_data(pool, start);
            is(data.designator, text)
                && data.ddi == object.ddi
                && (data.properties, data.triggers) == (object.properties, object.triggers)
                && data.presentation == object.presentation
        }
        Kind::Dpt => {
            let property = read_property(pool, start);
            is(property.designator, text)
                && (property.ddi, property.value) == (object.ddi, object.value)
                && property.presentation == object.presentation
        }
        Kind::Dvp => {
            let presentation = read_presentation(pool, start);
            is(presentation.unit, text)
                && presentation.offset == object.offset
                && presentation.scale_bits == object.scale_bits
                && presentation.decimals == object.decimals
        }
    }
}

#[cfg(test)]
mod tests {
    use super::*;
    use crate::objects::pool_of;
    use crate::realistic::realistic;
    use second::Record;

    /// Mark and ID, which a view leaves out.
    const HEAD: usize = 5;

    #[test]
    fn every_byte_of_a_record_is_in_one_of_its_fields() {
        let objects = realistic(3_000);
        let pool = pool_of(&objects);
        let mut table = vec![Record::default(); objects.len()];
        assert_eq!(second::read_pool(&pool, &mut table), Ok(objects.len()));
        for (object, record) in objects.iter().zip(table) {
            assert!(are_of(object, &pool, record.start));
            let start = usize::from(record.start);
            for at in start + HEAD..start + usize::from(record.length) {
                let mut changed = pool.clone();
                changed[at] ^= 1;
                assert!(!are_of(object, &changed, record.start), "byte {at}");
            }
        }
    }
}
