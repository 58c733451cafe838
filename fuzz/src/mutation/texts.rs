//! Changes to a text.

use compare::random::Random;

/// Characters of every length, at the ends of their ranges, and bytes that are
/// no characters: overlong, surrogates, beyond the last, cut; and the mark.
const PARTS: [&[u8]; 22] = [
    b"a",
    b"\x7F",
    b"\xC2\x80",
    b"\xDF\xBF",
    b"\xE0\xA0\x80",
    b"\xED\x9F\xBF",
    b"\xEE\x80\x80",
    b"\xEF\xBF\xBF",
    b"\xF0\x90\x80\x80",
    b"\xF4\x8F\xBF\xBF",
    b"\xEF\xBB\xBF",
    b"\x80",
    b"\xC0\x80",
    b"\xC1\xBF",
    b"\xE0\x9F\xBF",
    b"\xED\xA0\x80",
    b"\xF0\x8F\xBF\xBF",
    b"\xF4\x90\x80\x80",
    b"\xF5\x80\x80\x80",
    b"\xE2\x82",
    b"\xF0\x9F\x8C",
    b"\xFF",
];
const LONGEST: usize = 140;

pub fn mutate(random: &mut Random, input: &mut Vec<u8>) -> bool {
    let mut text = input.split_off(1);
    change(random, &mut text);
    input.extend(text);
    true
}

pub fn change(random: &mut Random, text: &mut Vec<u8>) {
    let at = random.below(text.len() + 1);
    match random.below(6) {
        0 => text.truncate(at),
        1 => {
            let times = random.pick(&[2, 4, 31, 32, 33]);
            let part = random.pick(&PARTS);
            text.splice(at..at, part.repeat(times));
        }
        _ => {
            let part = random.pick(&PARTS);
            text.splice(at..at, part.iter().copied());
        }
    }
    text.truncate(LONGEST);
}
