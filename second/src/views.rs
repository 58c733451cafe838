//! The fields of one record of a device descriptor object pool, given the
//! pool and the position where the record starts.
//!
//! Nothing is judged. The fields are taken one after the other as though a
//! whole record of the requested kind stood there: the mark is not looked at,
//! a length byte may have any value, and a byte past the pool's end reads
//! as 0. Texts and labels are returned as places in the pool, which may lie
//! past its end. Numbers are little-endian.

use std::ops::Range;

/// The fields of a device record (DVC).
#[derive(Clone, Debug, PartialEq, Eq)]
pub struct DeviceView {
    /// The place of the designator.
    pub designator: Range<usize>,
    /// The place of the software version.
    pub version: Range<usize>,
    /// The NAME; its first byte is the lowest.
    pub name: u64,
    /// The place of the serial number.
    pub serial: Range<usize>,
    /// The place of the structure label, always seven bytes.
    pub structure: Range<usize>,
    /// The place of the localization label, always seven bytes.
    pub localization: Range<usize>,
    /// The place of the extended structure label.
    pub extended: Range<usize>,
}

/// The fields of a device element record (DET), without its list of entries.
#[derive(Clone, Debug, PartialEq, Eq)]
pub struct ElementView {
    /// The element type.
    pub element_type: u8,
    /// The place of the designator.
    pub designator: Range<usize>,
    /// The element number.
    pub number: u16,
    /// The object ID of the parent.
    pub parent: u16,
    /// The entry count: how many object IDs the list claims to hold.
    pub entries: u16,
}

/// The fields of a process data record (DPD).
#[derive(Clone, Debug, PartialEq, Eq)]
pub struct ProcessDataView {
    /// The data dictionary identifier.
    pub ddi: u16,
    /// The property bits.
    pub properties: u8,
    /// The trigger method bits.
    pub triggers: u8,
    /// The place of the designator.
    pub designator: Range<usize>,
    /// The object ID of the value presentation.
    pub presentation: u16,
}

/// The fields of a property record (DPT).
#[derive(Clone, Debug, PartialEq, Eq)]
pub struct PropertyView {
    /// The data dictionary identifier.
    pub ddi: u16,
    /// The value of the property.
    pub value: i32,
    /// The place of the designator.
    pub designator: Range<usize>,
    /// The object ID of the value presentation.
    pub presentation: u16,
}

/// The fields of a value presentation record (DVP).
#[derive(Clone, Debug, PartialEq, Eq)]
pub struct PresentationView {
    /// The offset added to a value before scaling.
    pub offset: i32,
    /// The bits of the scale, a 32-bit float.
    pub scale_bits: u32,
    /// The number of decimals.
    pub decimals: u8,
    /// The place of the unit text.
    pub unit: Range<usize>,
}

/// A position in a pool that moves past each field as it is taken.
///
/// It stays below 200,000: a start, four texts and a list have no more bytes.
struct Cursor<'a> {
    pool: &'a [u8],
    at: usize,
}

impl<'a> Cursor<'a> {
    /// Stands at the first field after the ID of the record at `start`.
    fn after_head(pool: &'a [u8], start: u16) -> Self {
        // The mark has three bytes and the ID two.
        let at = usize::from(start) + 5;
        Cursor { pool, at }
    }

    /// Passes `length` bytes and returns their place.
    fn place(&mut self, length: usize) -> Range<usize> {
        let first = self.at;
        self.at += length;
        first..self.at
    }

    /// Takes a length byte and passes the text after it, returning its place.
    fn text(&mut self) -> Range<usize> {
        let length = usize::from(self.u8());
        self.place(length)
    }

    /// Takes `N` bytes; those that the pool does not have are 0.
    fn bytes<const N: usize>(&mut self) -> [u8; N] {
        let first = self.place(N).start;
        std::array::from_fn(|i| self.pool.get(first + i).copied().unwrap_or(0))
    }

    fn u8(&mut self) -> u8 {
        u8::from_le_bytes(self.bytes())
    }

    fn u16(&mut self) -> u16 {
        u16::from_le_bytes(self.bytes())
    }
}

/// The fields of the device record at `start`.
pub fn read_device(pool: &[u8], start: u16) -> DeviceView {
    let mut cursor = Cursor::after_head(pool, start);
    DeviceView {
        designator: cursor.text(),
        version: cursor.text(),
        name: u64::from_le_bytes(cursor.bytes()),
        serial: cursor.text(),
        structure: cursor.place(7),
        localization: cursor.place(7),
        extended: cursor.text(),
    }
}

/// The fields of the device element record at `start`.
pub fn read_element(pool: &[u8], start: u16) -> ElementView {
    let mut cursor = Cursor::after_head(pool, start);
    ElementView {
        element_type: cursor.u8(),
        designator: cursor.text(),
        number: cursor.u16(),
        parent: cursor.u16(),
        entries: cursor.u16(),
    }
}

/// The ID that entry `n` (from 0) of a device element's list names; past the
/// list's end the bytes are read as though it went on.
pub fn read_entry(pool: &[u8], start: u16, n: u16) -> u16 {
    // Element number, parent and entry count stand before the list.
    let list = read_element(pool, start).designator.end + 6;
    let at = list + 2 * usize::from(n);
    Cursor { pool, at }.u16()
}

/// The fields of the process data record at `start`.
pub fn read_process_data(pool: &[u8], start: u16) -> ProcessDataView {
    let mut cursor = Cursor::after_head(pool, start);
    ProcessDataView {
        ddi: cursor.u16(),
        properties: cursor.u8(),
        triggers: cursor.u8(),
        designator: cursor.text(),
        presentation: cursor.u16(),
    }
}

/// The fields of the property record at `start`.
pub fn read_property(pool: &[u8], start: u16) -> PropertyView {
    let mut cursor = Cursor::after_head(pool, start);
    PropertyView {
        ddi: cursor.u16(),
        value: i32::from_le_bytes(cursor.bytes()),
        designator: cursor.text(),
        presentation: cursor.u16(),
    }
}

/// The fields of the value presentation record at `start`.
pub fn read_presentation(pool: &[u8], start: u16) -> PresentationView {
    let mut cursor = Cursor::after_head(pool, start);
    PresentationView {
        offset: i32::from_le_bytes(cursor.bytes()),
        scale_bits: u32::from_le_bytes(cursor.bytes()),
        decimals: cursor.u8(),
        unit: cursor.text(),
    }
}

#[cfg(test)]
mod tests {
    use super::*;

    /// Pool P of the rules: a device and one element, 44 bytes.
    fn pool_p() -> Vec<u8> {
        let mut pool = b"DVC".to_vec();
        pool.extend([0; 2]); // ID
        pool.extend([0; 2]); // N, M
        pool.extend([0; 8]); // NAME
        pool.push(0); // O
        pool.extend([1; 7]);
        pool.extend([0x65, 0x6E, 0, 0, 0, 0, 0xFF]);
        pool.push(0); // X
        pool.extend([
            0x44, 0x45, 0x54, 0x01, 0x00, 0x01, 0x00, 0x00, 0x00, 0x00, 0x00, 0x00, 0x00,
        ]);
        pool
    }

    /// Pool Q of the rules: P, a second element and a process data record.
    fn pool_q() -> Vec<u8> {
        let mut pool = pool_p();
        pool.extend([
            0x44, 0x45, 0x54, 0x02, 0x00, 0x04, 0x00, 0x01, 0x00, 0x01, 0x00, 0x01, 0x00, 0x03,
            0x00,
        ]);
        pool.extend([
            0x44, 0x50, 0x44, 0x03, 0x00, 0x8D, 0x00, 0x01, 0x09, 0x00, 0xFF, 0xFF,
        ]);
        pool
    }

    #[test]
    fn device_of_p() {
        let pool = pool_p();
        assert_eq!(pool.len(), 44);
        let view = read_device(&pool, 0);
        let expected = DeviceView {
            designator: 6..6,
            version: 7..7,
            name: 0,
            serial: 16..16,
            structure: 16..23,
            localization: 23..30,
            extended: 31..31,
        };
        assert_eq!(view, expected);
        assert_eq!(pool[view.structure], [1; 7]);
        assert_eq!(pool[view.localization], [0x65, 0x6E, 0, 0, 0, 0, 0xFF]);
    }

    #[test]
    fn elements_and_process_data_of_q() {
        let pool = pool_q();
        assert_eq!(pool.len(), 71);
        let root = ElementView {
            element_type: 1,
            designator: 38..38,
            number: 0,
            parent: 0,
            entries: 0,
        };
        assert_eq!(read_element(&pool, 31), root);
        let child = ElementView {
            element_type: 4,
            designator: 51..51,
            number: 1,
            parent: 1,
            entries: 1,
        };
        assert_eq!(read_element(&pool, 44), child);
        let data = ProcessDataView {
            ddi: 141,
            properties: 1,
            triggers: 9,
            designator: 69..69,
            presentation: 65535,
        };
        assert_eq!(read_process_data(&pool, 59), data);
    }

    #[test]
    fn entries_of_q() {
        let pool = pool_q();
        assert_eq!(read_entry(&pool, 44, 0), 3);
        // Past the list's end the next record's bytes are read on.
        assert_eq!(read_entry(&pool, 44, 1), 0x5044);
        assert_eq!(read_entry(&pool, 31, 0), 0x4544);
        assert_eq!(read_entry(&pool, 44, 5), 0x0009);
        // The pool has both bytes of the entry, one of them, none.
        assert_eq!(read_entry(&pool, 44, 6), 0xFFFF);
        assert_eq!(read_entry(&pool[..70], 44, 6), 0x00FF);
        assert_eq!(read_entry(&pool, 44, 7), 0);
        assert_eq!(read_entry(&pool, 44, u16::MAX), 0);
    }

    #[test]
    fn entries_follow_a_designator() {
        let mut pool = b"xDET".to_vec();
        pool.extend([7, 0, 2, 3]);
        pool.extend(b"abc");
        pool.extend([0x34, 0x12, 0x78, 0x56, 2, 1, 0xA1, 0xB1, 0xA2, 0xB2]);
        let expected = ElementView {
            element_type: 2,
            designator: 8..11,
            number: 0x1234,
            parent: 0x5678,
            entries: 0x0102,
        };
        let view = read_element(&pool, 1);
        assert_eq!(view, expected);
        assert_eq!(pool[view.designator], *b"abc");
        assert_eq!(read_entry(&pool, 1, 0), 0xB1A1);
        assert_eq!(read_entry(&pool, 1, 1), 0xB2A2);
        assert_eq!(read_entry(&pool, 1, 2), 0);
    }

    #[test]
    fn device_with_texts() {
        let mut pool = b"..DVC".to_vec();
        pool.extend([0, 0, 2]);
        pool.extend(b"ab");
        pool.push(3);
        pool.extend(b"1.0");
        pool.extend([1, 2, 3, 4, 5, 6, 7, 0x88]);
        pool.push(1);
        pool.extend(b"S");
        pool.extend(b"structu");
        pool.extend(b"localiz");
        pool.push(4);
        pool.extend(b"more");
        let view = read_device(&pool, 2);
        assert_eq!(pool[view.designator.clone()], *b"ab");
        assert_eq!(pool[view.version.clone()], *b"1.0");
        assert_eq!(view.name, 0x8807_0605_0403_0201);
        assert_eq!(pool[view.serial.clone()], *b"S");
        assert_eq!(pool[view.structure.clone()], *b"structu");
        assert_eq!(pool[view.localization.clone()], *b"localiz");
        assert_eq!(pool[view.extended.clone()], *b"more");
        assert_eq!(view.extended.end, pool.len());
        // Cut inside NAME: its missing bytes, and the lengths after it, are 0.
        let cut = read_device(&pool[..17], 2);
        assert_eq!(cut.name, 0x0000_0000_0003_0201);
        let expected = DeviceView {
            designator: 8..10,
            version: 11..14,
            name: 0x0003_0201,
            serial: 23..23,
            structure: 23..30,
            localization: 30..37,
            extended: 38..38,
        };
        assert_eq!(cut, expected);
    }

    #[test]
    fn property_fields() {
        let mut pool = b"DPT".to_vec();
        pool.extend([9, 0, 0x8D, 0x01, 0xFE, 0xFF, 0xFF, 0xFF, 2]);
        pool.extend(b"xy");
        pool.extend([0x0A, 0x0B]);
        let expected = PropertyView {
            ddi: 0x018D,
            value: -2,
            designator: 12..14,
            presentation: 0x0B0A,
        };
        assert_eq!(read_property(&pool, 0), expected);
        pool[5..9].copy_from_slice(&[1, 2, 3, 4]);
        let other = read_property(&pool, 0);
        assert_eq!((other.ddi, other.value), (0x0201, 0xFFFF_0403_u32 as i32));
        assert_eq!(read_property(&pool[..15], 0).presentation, 0x000A);
        assert_eq!(read_property(&pool[..8], 0).value, 0x0000_0003);
    }

    #[test]
    fn presentation_fields() {
        let mut pool = b"DVP".to_vec();
        pool.extend([4, 0]);
        pool.extend((-20_i32).to_le_bytes());
        pool.extend(0.5_f32.to_bits().to_le_bytes());
        pool.extend([2, 3]);
        pool.extend(b"l/h");
        let expected = PresentationView {
            offset: -20,
            scale_bits: 0x3F00_0000,
            decimals: 2,
            unit: 15..18,
        };
        assert_eq!(read_presentation(&pool, 0), expected);
        // The unit text's place is the same where its bytes are missing.
        assert_eq!(read_presentation(&pool[..15], 0), expected);
        assert_eq!(read_presentation(&pool[..14], 0).unit, 15..15);
    }

    #[test]
    fn lengths_of_255_are_followed() {
        let pool = vec![0xFF; 2000];
        let device = DeviceView {
            designator: 106..361,
            version: 362..617,
            name: u64::MAX,
            serial: 626..881,
            structure: 881..888,
            localization: 888..895,
            extended: 896..1151,
        };
        assert_eq!(read_device(&pool, 100), device);
        assert_eq!(read_element(&pool, 100).designator, 107..362);
        assert_eq!(read_process_data(&pool, 100).designator, 110..365);
        assert_eq!(read_property(&pool, 100).designator, 112..367);
        assert_eq!(read_property(&pool, 100).value, -1);
        assert_eq!(read_presentation(&pool, 100).unit, 115..370);
        // A text reaching past the end is not cut; fields after it are 0.
        let element = read_element(&pool[..300], 100);
        assert_eq!(element.designator, 107..362);
        assert_eq!((element.number, element.parent, element.entries), (0, 0, 0));
    }

    #[test]
    fn nothing_there_reads_as_zero() {
        for start in [0, 1, 0xFFFF_u16] {
            let s = usize::from(start);
            let device = DeviceView {
                designator: s + 6..s + 6,
                version: s + 7..s + 7,
                name: 0,
                serial: s + 16..s + 16,
                structure: s + 16..s + 23,
                localization: s + 23..s + 30,
                extended: s + 31..s + 31,
            };
            assert_eq!(read_device(&[], start), device);
            let element = ElementView {
                element_type: 0,
                designator: s + 7..s + 7,
                number: 0,
                parent: 0,
                entries: 0,
            };
            assert_eq!(read_element(&[], start), element);
            let data = ProcessDataView {
                ddi: 0,
                properties: 0,
                triggers: 0,
                designator: s + 10..s + 10,
                presentation: 0,
            };
            assert_eq!(read_process_data(&[], start), data);
            let property = PropertyView {
                ddi: 0,
                value: 0,
                designator: s + 12..s + 12,
                presentation: 0,
            };
            assert_eq!(read_property(&[], start), property);
            let presentation = PresentationView {
                offset: 0,
                scale_bits: 0,
                decimals: 0,
                unit: s + 15..s + 15,
            };
            assert_eq!(read_presentation(&[], start), presentation);
            assert_eq!(read_entry(&[], start, u16::MAX), 0);
        }
    }

    #[test]
    fn the_largest_positions_are_reached() {
        // A pool longer than the rules allow is read as well.
        let mut pool = vec![0xFF; 200_000];
        let list = 65_535 + 7 + 255 + 6;
        pool[list + 2 * 65_535] = 0x12;
        pool[list + 2 * 65_535 + 1] = 0x34;
        assert_eq!(read_entry(&pool, u16::MAX, u16::MAX), 0x3412);
        assert_eq!(read_entry(&pool[..list], u16::MAX, u16::MAX), 0);
        assert_eq!(read_device(&pool, u16::MAX).extended, 66_331..66_586);
    }

    #[test]
    fn absent_bytes_equal_appended_zeros() {
        // Every cut of a patterned pool reads as the cut followed by zeros,
        // and the mark and the ID make no difference.
        let pool: Vec<u8> = (0..120_u32).map(|i| (i * i * 37 + 11) as u8).collect();
        for end in 0..=pool.len() {
            let cut = &pool[..end];
            let mut padded = cut.to_vec();
            padded.resize(4000, 0);
            for start in 0..130_u16 {
                let mut marked = padded.clone();
                marked[usize::from(start)..usize::from(start) + 5].fill(0xEE);
                for other in [&padded, &marked] {
                    assert_eq!(read_device(cut, start), read_device(other, start));
                    assert_eq!(read_element(cut, start), read_element(other, start));
                    assert_eq!(
                        read_process_data(cut, start),
                        read_process_data(other, start)
                    );
                    assert_eq!(read_property(cut, start), read_property(other, start));
                    assert_eq!(
                        read_presentation(cut, start),
                        read_presentation(other, start)
                    );
                    for n in [0, 1, 2, 20, 300] {
                        assert_eq!(read_entry(cut, start, n), read_entry(other, start, n));
                    }
                }
            }
        }
    }
}
