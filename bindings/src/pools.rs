//! Pools for the tests: the worked examples, and two whose fields all differ.

use std::vec::Vec;

/// A device and a device element.
pub fn p() -> Vec<u8> {
    let localization = [0x65, 0x6E, 0, 0, 0, 0, 0xFF];
    let mut pool = device(b"", b"", [0; 8], b"", [1; 7], localization, b"");
    pool.extend(b"DET\x01\x00\x01\x00\x00\x00\x00\x00\x00\x00");
    pool
}

/// P, a function with number 1 and its process data, DDI 141, which is sent by
/// time and on change.
pub fn q() -> Vec<u8> {
    let mut pool = p();
    pool.extend(b"DET\x02\x00\x04\x00\x01\x00\x01\x00\x01\x00\x03\x00");
    pool.extend(b"DPD\x03\x00\x8D\x00\x01\x09\x00\xFF\xFF");
    pool
}

/// P with texts and labels whose bytes all differ.
pub fn named() -> Vec<u8> {
    let name = [0x11, 0x22, 0x33, 0x44, 0x55, 0x66, 0x77, 0x88];
    let structure = [1, 2, 3, 4, 5, 6, 7];
    let localization = [0x65, 0x6E, 1, 2, 3, 4, 0xFF];
    let extended = [8, 9, 10];
    let mut pool = device(
        b"Spritze",
        b"v2",
        name,
        b"123",
        structure,
        localization,
        &extended,
    );
    pool.extend(&p()[31..]);
    pool
}

/// P's device and a record of each other kind: an element with two entries, a
/// process data with the presentation, and a property without one.
pub fn walked() -> Vec<u8> {
    let mut pool = p()[..31].to_vec();
    pool.extend(b"DET\x01\x02\x01\x04Boom\x02\x01\x00\x00\x02\x00\x03\x02\x04\x03");
    pool.extend(b"DPD\x03\x02\x05\x04\x02\x11\x04Rate\x06\x05");
    pool.extend(b"DPT\x04\x03\x07\x06\x18\xFC\xFF\xFF\x05Width\xFF\xFF");
    pool.extend(b"DVP\x06\x05\xEC\xFF\xFF\xFF\x00\x00\x00\x3F\x02\x04l/ha");
    pool
}

fn device(
    designator: &[u8],
    version: &[u8],
    name: [u8; 8],
    serial: &[u8],
    structure: [u8; 7],
    localization: [u8; 7],
    extended: &[u8],
) -> Vec<u8> {
    let mut record = b"DVC\x00\x00".to_vec();
    let counted = |record: &mut Vec<u8>, part: &[u8]| {
        record.push(part.len() as u8);
        record.extend(part);
    };
    counted(&mut record, designator);
    counted(&mut record, version);
    record.extend(name);
    counted(&mut record, serial);
    record.extend(structure);
    record.extend(localization);
    counted(&mut record, extended);
    record
}
