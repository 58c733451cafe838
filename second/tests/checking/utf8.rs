//! Rule 4: texts.

use crate::literal;
use crate::pools::{faults, faults_after_device, pool, Det, Dpd, Dpt, Dvc, Dvp};

const NO_FAULTS: [(u16, u8, u16); 0] = [];

/// Judges the text at the end of a pool and before other bytes, high ones
/// first.
fn is_sound(text: &[u8]) -> bool {
    let last = Dvp {
        unit: text,
        ..Dvp::default()
    };
    let before = Dpd {
        designator: text,
        ..Dpd::default()
    };
    let behind = Dvp {
        unit: &[b'm'; 32],
        ..Dvp::default()
    };
    let found = faults_after_device(&[&last]);
    assert!(found.is_empty() || found == [(3, 4, 1)], "{text:02X?}");
    let found_before = faults_after_device(&[&before, &behind]);
    assert_eq!(found, found_before, "{text:02X?}");
    found.is_empty()
}

#[test]
fn a_text_has_up_to_32_characters_of_any_length() {
    for character in ["a", "\0", "ü", "€", "\u{1F33E}"] {
        assert!(is_sound(character.repeat(31).as_bytes()));
        assert!(is_sound(character.repeat(32).as_bytes()));
        if 33 * character.len() <= 128 {
            assert!(!is_sound(character.repeat(33).as_bytes()));
        }
    }
    let wide = "\u{10FFFF}".repeat(31);
    assert!(is_sound(format!("{wide}a").as_bytes()));
    assert!(!is_sound(format!("{wide}aa").as_bytes()));
}

#[test]
fn a_combining_character_counts() {
    let text = "e\u{301}".repeat(16);
    assert!(is_sound(text.as_bytes()));
    assert!(!is_sound(format!("{text}e").as_bytes()));
}

#[test]
fn a_byte_order_mark_is_a_fault_only_at_the_start() {
    assert!(!is_sound(b"\xEF\xBB\xBF"));
    assert!(!is_sound(b"\xEF\xBB\xBFm"));
    assert!(is_sound(b"m\xEF\xBB\xBF"));
    assert!(is_sound(b"\xEF\xBB\xBE"));
    assert!(is_sound(b"\xEF\xBC\xBF"));
}

#[test]
fn sequences_on_both_sides_of_each_limit() {
    let sound: [&[u8]; 9] = [
        b"\x7F",
        b"\xC2\x80",
        b"\xDF\xBF",
        b"\xE0\xA0\x80",
        b"\xED\x9F\xBF",
        b"\xEE\x80\x80",
        b"\xEF\xBF\xBF",
        b"\xF0\x90\x80\x80",
        b"\xF4\x8F\xBF\xBF",
    ];
    let unsound: [&[u8]; 17] = [
        b"\x80",             // a tail without a start
        b"\xBF",             //
        b"\xC2",             // a start without a tail
        b"\xC2A",            //
        b"\xE2\x82",         // cut
        b"\xF0\x9F\x8C",     //
        b"\xC0\x80",         // overlong
        b"\xC1\xBF",         //
        b"\xE0\x9F\xBF",     //
        b"\xF0\x8F\xBF\xBF", //
        b"\xED\xA0\x80",     // surrogates
        b"\xED\xBF\xBF",     //
        b"\xF4\x90\x80\x80", // over 10FFFF
        b"\xF5\x80\x80\x80", //
        b"\xF8\x88\x80\x80\x80",
        b"\xFE",
        b"\xFF",
    ];
    for text in sound {
        assert!(is_sound(text), "{text:02X?}");
    }
    for text in unsound {
        assert!(!is_sound(text), "{text:02X?}");
    }
}

#[test]
fn an_unsound_byte_is_found_at_every_place_of_a_short_text() {
    for length in 1..=32 {
        for at in 0..length {
            let mut text = vec![b'a'; length];
            text[at] = 0x80;
            assert!(!is_sound(&text), "{length} {at}");
        }
    }
}

#[test]
fn sequences_of_limit_bytes_as_the_grammar_has_them() {
    let starts = [
        0x00, 0x41, 0x7F, 0x80, 0xBF, 0xC0, 0xC1, 0xC2, 0xDF, 0xE0, 0xE1, 0xEC, 0xED, 0xEE, 0xEF,
        0xF0, 0xF1, 0xF3, 0xF4, 0xF5, 0xFF,
    ];
    let tails = [
        0x41, 0x7F, 0x80, 0x8F, 0x90, 0x9F, 0xA0, 0xBB, 0xBF, 0xC0, 0xF0,
    ];
    for first in starts {
        for second in tails {
            for third in tails {
                for fourth in tails {
                    let text = [first, second, third, fourth];
                    for length in 1..=4 {
                        agrees_with_the_grammar(&text[..length]);
                    }
                }
            }
        }
    }
}

fn agrees_with_the_grammar(text: &[u8]) {
    assert_eq!(is_sound(text), literal::is_sound_text(text), "{text:02X?}");
}

#[test]
fn a_text_is_one_fault_however_many_reasons_it_has() {
    let text = [&b"\xEF\xBB\xBF"[..], &[b'a'; 40], b"\xFF"].concat();
    assert!(!is_sound(&text));
}

#[test]
fn a_device_has_three_texts() {
    for bad in 0..8 {
        let mut device = Dvc::default();
        let mut expected = Vec::new();
        for index in 0..3 {
            if bad >> index & 1 == 1 {
                device.texts[index] = b"\xFF";
                expected.push((1, 4, index as u16 + 1));
            }
        }
        assert_eq!(faults(&pool(&[&device, &Det::root()])), expected);
    }
}

#[test]
fn the_other_kinds_have_one_text() {
    for (designator, breached) in [(&b"\xC3\xBC"[..], false), (b"\xC3", true)] {
        let element = Det {
            id: 2,
            number: 1,
            designator,
            ..Det::default()
        };
        let data = Dpd {
            designator,
            ..Dpd::default()
        };
        let property = Dpt {
            designator,
            ..Dpt::default()
        };
        let presentation = Dvp {
            unit: designator,
            ..Dvp::default()
        };
        let found = faults_after_device(&[&element, &data, &property, &presentation]);
        if breached {
            assert_eq!(found, [(3, 4, 1), (4, 4, 1), (5, 4, 1), (6, 4, 1)]);
        } else {
            assert_eq!(found, NO_FAULTS);
        }
    }
}
