//! The library's examiner of texts against the second implementation's.

use crate::library;
use crate::random::Random;

/// A character of each width.
const CHARACTERS: [&str; 4] = ["a", "é", "€", "𝄞"];
const MARK: &[u8] = b"\xEF\xBB\xBF";
/// Bytes at which a range of RFC 3629 begins or ends, and their neighbours.
const EDGES: [u8; 26] = [
    0x00, 0x7F, 0x80, 0x81, 0x8E, 0x8F, 0x90, 0x91, 0x9E, 0x9F, 0xA0, 0xA1, 0xBE, 0xBF, 0xC0, 0xC1,
    0xC2, 0xDF, 0xE0, 0xED, 0xEF, 0xF0, 0xF4, 0xF5, 0xFE, 0xFF,
];
/// One more than a pool's longest text.
const LONGEST: usize = 129;

#[derive(Default)]
pub struct Report {
    pub compared: u64,
    pub sound: u64,
    pub differences: u64,
    pub first: Option<Vec<u8>>,
}

impl Report {
    fn compare(&mut self, text: &[u8]) {
        let expected = second::text_is_sound(text);
        self.compared += 1;
        self.sound += u64::from(expected);
        if library::text_is_sound(text) != expected {
            self.differences += 1;
            self.first.get_or_insert_with(|| text.to_vec());
        }
    }
}

/// Compares fixed texts and the given number of seeded ones.
pub fn compare(seed: u64, seeded: u64) -> Report {
    let mut report = Report::default();
    short(&mut report);
    sequences(&mut report);
    counts(&mut report);
    for index in 0..seeded {
        report.compare(&generated(&mut Random::for_item(seed, index)));
    }
    report
}

/// Every text of at most two bytes.
fn short(report: &mut Report) {
    report.compare(b"");
    for a in 0..=255 {
        report.compare(&[a]);
        for b in 0..=255 {
            report.compare(&[a, b]);
        }
    }
}

/// Every first byte that announces more bytes, followed by edges: cut, complete
/// and with a character after them.
fn sequences(report: &mut Report) {
    for a in 0xC0..=255 {
        for (b, c) in EDGES.iter().flat_map(|b| EDGES.map(|c| (*b, c))) {
            report.compare(&[a, b, c]);
            report.compare(&[a, b, c, b'a']);
            for d in EDGES {
                report.compare(&[a, b, c, d]);
            }
        }
    }
}

/// Texts of 0 to 40 characters of each width, with and without the mark.
fn counts(report: &mut Report) {
    for character in CHARACTERS {
        for count in 0..=40 {
            let text = character.repeat(count).into_bytes();
            report.compare(&text);
            report.compare(&[MARK, &text].concat());
            report.compare(&[&text, MARK].concat());
            report.compare(&text[..text.len().saturating_sub(1)]);
        }
    }
}

/// Mostly characters of mixed widths, often with a byte changed.
fn generated(random: &mut Random) -> Vec<u8> {
    let mut text = Vec::new();
    for _ in 0..random.between(0, 36) {
        match random.below(20) {
            0 => text.push(random.byte()),
            1 => text.extend(
                char::from_u32(random.below(0x11_0000) as u32)
                    .map_or(vec![], |c| c.to_string().into_bytes()),
            ),
            _ => text.extend(random.pick(&CHARACTERS).bytes()),
        }
    }
    text.truncate(LONGEST);
    if random.one_in(3) && !text.is_empty() {
        let at = random.below(text.len());
        text[at] = random.pick(&EDGES);
    }
    text
}
