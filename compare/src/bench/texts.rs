//! The examiner of a text.

use super::keep;
use super::table::{Group, Row, Unit};
use super::times::{time, Rounds, Side};
use crate::library;
use std::hint::black_box;

const ROUNDS: usize = 401;
/// Bytes examined in a round, which makes it long compared with the clock's
/// resolution.
const ROUND_BYTES: usize = 500_000;

/// Kinds of texts: a name, a character and how often it is repeated.
const TEXTS: [(&str, &str, usize); 5] = [
    ("12 letters", "a", 12),
    ("32 letters", "a", 32),
    ("128 letters (too many)", "a", 128),
    ("32 characters of 3 bytes", "€", 32),
    ("32 characters of 4 bytes", "𝄞", 32),
];

/// Examines texts of some kinds with both sides, many at a time.
pub fn bench() -> Result<Group, String> {
    let mut rows = Vec::new();
    for (name, character, count) in TEXTS {
        let text = character.repeat(count).into_bytes();
        if library::text_is_sound(&text) != second::text_is_sound(&text) {
            return Err(format!("a text: {name}"));
        }
        rows.push(Row::new(name, time_text(&text).pair()));
    }
    Ok(Group {
        name: "texts",
        of: "text examined".into(),
        unit: Unit::Nanoseconds,
        beside: "",
        rows,
    })
}

fn time_text(text: &[u8]) -> Rounds {
    let calls = ROUND_BYTES / text.len();
    let mut rounds = Rounds::default();
    for _ in 0..ROUNDS {
        rounds.push(|side| match side {
            Side::Library => time(calls, || keep(library::text_is_sound(black_box(text)))),
            Side::Second => time(calls, || keep(second::text_is_sound(black_box(text)))),
        });
    }
    rounds
}
