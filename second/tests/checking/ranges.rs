//! Rule 5 on both sides of each limit.

use crate::pools::{faults, faults_after_device, pool, Det, Dpd, Dvc, Dvp};

const NO_FAULTS: [(u16, u8, u16); 0] = [];

fn faults_of_device(device: &Dvc) -> Vec<(u16, u8, u16)> {
    faults(&pool(&[device, &Det::root()]))
}

#[test]
fn structure_label_bytes_are_not_255() {
    for at in 0..7 {
        for (byte, breached) in [(0, false), (254, false), (255, true)] {
            let mut device = Dvc::default();
            device.structure[at] = byte;
            let expected = breached.then_some((1, 5, at as u16 + 1));
            assert_eq!(faults_of_device(&device), Vec::from_iter(expected));
        }
    }
}

#[test]
fn localization_bytes_1_to_6_are_not_255_and_byte_7_is() {
    for at in 0..7 {
        for byte in [0, 254, 255] {
            let mut device = Dvc::default();
            device.localization[at] = byte;
            let breached = (byte == 255) != (at == 6);
            let expected = breached.then_some((1, 5, at as u16 + 8));
            assert_eq!(faults_of_device(&device), Vec::from_iter(expected));
        }
    }
}

#[test]
fn each_label_byte_is_a_fault_of_its_own() {
    let device = Dvc {
        structure: [255; 7],
        localization: [255, 255, 255, 255, 255, 255, 0],
        ..Dvc::default()
    };
    let expected: Vec<_> = (1..=14).map(|item| (1, 5, item)).collect();
    assert_eq!(faults_of_device(&device), expected);
}

#[test]
fn the_extended_label_is_free() {
    for extended in [&[255; 32][..], b"\xEF\xBB\xBF", b"\0"] {
        let device = Dvc {
            extended,
            ..Dvc::default()
        };
        assert_eq!(faults_of_device(&device), NO_FAULTS);
    }
}

#[test]
fn element_types_go_from_1_to_7() {
    for element_type in 0..=255 {
        let element = Det {
            id: 2,
            element_type,
            number: 1,
            ..Det::default()
        };
        let breached = element_type == 0 || element_type > 7;
        let expected = breached.then_some((3, 5, 1));
        assert_eq!(faults_after_device(&[&element]), Vec::from_iter(expected));
    }
}

#[test]
fn element_numbers_end_at_4095() {
    for number in [1, 4_094, 4_095, 4_096, 32_768, 65_535] {
        let element = Det {
            id: 2,
            number,
            ..Det::default()
        };
        let expected = (number > 4_095).then_some((3, 5, 2));
        assert_eq!(faults_after_device(&[&element]), Vec::from_iter(expected));
    }
}

#[test]
fn type_and_number_are_faults_of_their_own() {
    let element = Det {
        id: 2,
        element_type: 8,
        number: 4_096,
        ..Det::default()
    };
    assert_eq!(faults_after_device(&[&element]), [(3, 5, 1), (3, 5, 2)]);
}

#[test]
fn properties_have_three_bits_and_two_of_them_clash() {
    for properties in 0..=255 {
        let data = Dpd {
            properties,
            ..Dpd::default()
        };
        let mut expected = Vec::new();
        if properties > 7 {
            expected.push((3, 5, 1));
        }
        if [6, 7].contains(&(properties % 8)) {
            expected.push((3, 5, 2));
        }
        assert_eq!(faults_after_device(&[&data]), expected);
    }
}

#[test]
fn triggers_have_five_bits() {
    for triggers in 0..=255 {
        let data = Dpd {
            triggers,
            ..Dpd::default()
        };
        let expected = (triggers > 31).then_some((3, 5, 3));
        assert_eq!(faults_after_device(&[&data]), Vec::from_iter(expected));
    }
}

#[test]
fn all_faults_of_a_process_data_record_in_order() {
    let data = Dpd {
        id: 0,
        properties: 0xFF,
        triggers: 0xFF,
        designator: b"\xFF",
        presentation: 9,
        ..Dpd::default()
    };
    let expected = [
        (3, 1, 1),
        (3, 2, 1),
        (3, 4, 1),
        (3, 5, 1),
        (3, 5, 2),
        (3, 5, 3),
        (3, 6, 1),
    ];
    assert_eq!(faults_after_device(&[&data]), expected);
}

#[test]
fn scales_are_compared_as_bits() {
    let in_range = [
        0x322B_CC77,
        0x322B_CC78,
        0x3F80_0000,
        0x4CBE_BC1F,
        0x4CBE_BC20,
    ];
    let out_of_range = [
        0,
        1,
        0x322B_CC76,
        0x4CBE_BC21,
        f32::INFINITY.to_bits(),
        f32::NEG_INFINITY.to_bits(),
        f32::NAN.to_bits(),
        0x7F80_0001,
        0xFFC0_0000,
        0xFFFF_FFFF,
        (-1.0_f32).to_bits(),
        0x8000_0000,
        0xB22B_CC77,
        0xCCBE_BC20,
    ];
    let faults_with = |scale_bits| {
        faults_after_device(&[&Dvp {
            scale_bits,
            ..Dvp::default()
        }])
    };
    for bits in in_range {
        assert_eq!(faults_with(bits), NO_FAULTS, "{bits:08X}");
    }
    for bits in out_of_range {
        assert_eq!(faults_with(bits), [(3, 5, 1)], "{bits:08X}");
    }
}

#[test]
fn decimals_end_at_7() {
    for decimals in 0..=255 {
        let presentation = Dvp {
            decimals,
            ..Dvp::default()
        };
        let expected = (decimals > 7).then_some((3, 5, 2));
        let found = faults_after_device(&[&presentation]);
        assert_eq!(found, Vec::from_iter(expected));
    }
}

#[test]
fn scale_and_decimals_are_faults_of_their_own() {
    let presentation = Dvp {
        scale_bits: 0,
        decimals: 8,
        ..Dvp::default()
    };
    let found = faults_after_device(&[&presentation]);
    assert_eq!(found, [(3, 5, 1), (3, 5, 2)]);
}
