//! Sound texts and others.

use crate::objects::MOST_CHARACTERS;
use crate::random::Random;
use crate::shape::TEXT_LIMIT;

pub const MARK: &[u8] = b"\xEF\xBB\xBF";

/// The first and the last characters of each width, on both sides of the
/// surrogates, and some between.
const CHARACTERS: [char; 16] = [
    '\0',
    'a',
    'Z',
    ' ',
    '\u{7F}',
    '\u{80}',
    'ü',
    '\u{7FF}',
    '\u{800}',
    '€',
    '\u{D7FF}',
    '\u{E000}',
    '\u{FEFF}',
    '\u{FFFF}',
    '\u{10000}',
    '\u{10FFFF}',
];

/// Sequences on each side of each limit in RFC 3629's grammar. None is
/// well-formed, not even followed by a character.
pub const MALFORMED: [&[u8]; 56] = [
    // Tails without a start.
    b"\x80",
    b"\x8F",
    b"\x90",
    b"\x9F",
    b"\xA0",
    b"\xBF",
    // Two bytes.
    b"\xC0",
    b"\xC0\x80",
    b"\xC0\xAF",
    b"\xC1\x80",
    b"\xC1\xBF",
    b"\xC2",
    b"\xC2\x7F",
    b"\xC2\xC0",
    b"\xDF",
    b"\xDF\x7F",
    b"\xDF\xC0",
    // Three bytes.
    b"\xE0",
    b"\xE0\x80\x80",
    b"\xE0\x9F\xBF",
    b"\xE0\xA0",
    b"\xE0\xA0\x7F",
    b"\xE0\xA0\xC0",
    b"\xE0\xC0\x80",
    b"\xE1\x7F\x80",
    b"\xE1\x80",
    b"\xE1\xC0\x80",
    b"\xEC\xBF\xC0",
    b"\xED\x7F\x80",
    b"\xED\x9F\xC0",
    b"\xED\xA0\x80",
    b"\xED\xBF\xBF",
    b"\xEE\x7F\x80",
    b"\xEF\xBF",
    b"\xEF\xBF\xC0",
    // Four bytes.
    b"\xF0\x80\x80\x80",
    b"\xF0\x8F\xBF\xBF",
    b"\xF0\x90\x80",
    b"\xF0\x90\x80\x7F",
    b"\xF0\x90\x7F\x80",
    b"\xF0\xC0\x80\x80",
    b"\xF1\x7F\x80\x80",
    b"\xF1\x80\x80",
    b"\xF1\x80\xC0\x80",
    b"\xF3\xBF\xBF\xC0",
    b"\xF4\x7F\x80\x80",
    b"\xF4\x8F\xBF",
    b"\xF4\x8F\xBF\xC0",
    b"\xF4\x90\x80\x80",
    b"\xF4\xBF\xBF\xBF",
    // There are no longer ones.
    b"\xF5\x80\x80\x80",
    b"\xF7\xBF\xBF\xBF",
    b"\xF8\x88\x80\x80\x80",
    b"\xFC\x84\x80\x80\x80\x80",
    b"\xFE",
    b"\xFF",
];

/// A text of at most `most` characters, and never more than are allowed.
pub fn sound_text(random: &mut Random, most: usize) -> Vec<u8> {
    let most = most.min(MOST_CHARACTERS);
    let count = if random.one_in(8) {
        most
    } else {
        random.between(0, most)
    };
    characters(random, count)
}

/// `count` characters that do not begin with a byte order mark: mostly of mixed
/// widths, sometimes all the same.
fn characters(random: &mut Random, count: usize) -> Vec<u8> {
    let any = random.pick(&CHARACTERS);
    let alike = random.one_in(8);
    let mut text = String::new();
    for _ in 0..count {
        let character = if alike { any } else { random.pick(&CHARACTERS) };
        let marks = text.is_empty() && character == '\u{FEFF}';
        text.push(if marks { 'a' } else { character });
    }
    text.into_bytes()
}

/// A text that is unsound for one or more reasons: it is malformed, begins with
/// a byte order mark or is too long.
pub fn unsound_text(random: &mut Random) -> Vec<u8> {
    match random.below(6) {
        0 => [MARK, &sound_text(random, 20)].concat(),
        1 => too_many_characters(random, MOST_CHARACTERS + 1),
        2 => {
            let count = random.between(MOST_CHARACTERS + 1, TEXT_LIMIT);
            too_many_characters(random, count)
        }
        3 => [MARK, &malformed(random)].concat(),
        _ => malformed(random),
    }
}

/// `count` characters that fit into the bytes that a text may have.
fn too_many_characters(random: &mut Random, count: usize) -> Vec<u8> {
    let width = TEXT_LIMIT / count;
    let fitting: Vec<char> = CHARACTERS
        .into_iter()
        .filter(|character| character.len_utf8() <= width)
        .collect();
    let text: String = (0..count).map(|_| random.pick(&fitting)).collect();
    text.into_bytes()
}

/// A malformed sequence before, between or after characters.
fn malformed(random: &mut Random) -> Vec<u8> {
    let before = sound_text(random, 14);
    let behind = sound_text(random, 14);
    [&before[..], random.pick(&MALFORMED), &behind].concat()
}

#[cfg(test)]
mod tests {
    use super::*;
    use std::str;

    #[test]
    fn malformed_sequences_stay_so_among_characters() {
        for sequence in MALFORMED {
            for character in CHARACTERS {
                let character = character.to_string().into_bytes();
                for text in [
                    sequence.to_vec(),
                    [&character, sequence].concat(),
                    [sequence, &character].concat(),
                ] {
                    assert!(str::from_utf8(&text).is_err(), "{text:02X?}");
                }
            }
        }
    }

    #[test]
    fn drawn_texts_are_what_they_should_be() {
        let random = &mut Random::new(11783);
        for _ in 0..10_000 {
            let text = sound_text(random, 40);
            assert!(second::text_is_sound(&text), "{text:02X?}");
            let text = unsound_text(random);
            assert!(!second::text_is_sound(&text), "{text:02X?}");
            assert!(text.len() <= TEXT_LIMIT);
        }
    }
}
