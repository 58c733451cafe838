//! Calls that take nanoseconds, many at a time.

use super::table::Row;
use super::times::{time, Rounds, Side};
use std::hint::black_box;

const ROUNDS: usize = 401;
/// The title of the column next to the times.
pub const RATE: &str = "millions a second";

/// Has both sides work through the items `repeats` times in a round, which
/// makes it long compared with the clock's resolution. Next to the times is
/// the library's rate.
pub fn bench<Item>(
    name: impl Into<String>,
    items: &[Item],
    repeats: usize,
    mut by_library: impl FnMut(&Item),
    mut by_second: impl FnMut(&Item),
) -> Row {
    let mut rounds = Rounds::default();
    for _ in 0..ROUNDS {
        rounds.push(|side| match side {
            Side::Library => time_item(items, repeats, &mut by_library),
            Side::Second => time_item(items, repeats, &mut by_second),
        });
    }
    let pair = rounds.pair();
    Row {
        beside: Some(pair.library.rate(1.0)),
        ..Row::new(name, pair)
    }
}

/// Microseconds per item.
fn time_item<Item>(items: &[Item], repeats: usize, mut call: impl FnMut(&Item)) -> f64 {
    let all = || black_box(items).iter().for_each(&mut call);
    time(repeats, all) / items.len() as f64
}
