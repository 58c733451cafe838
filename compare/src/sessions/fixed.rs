//! Lists of session calls that are the same in every run.

use super::call::Call;
use crate::accepted;
use crate::breaches::{breach_in_way, WAYS};
use crate::fixed::{pool_p, pool_q};
use crate::library::ENTRY_WORDS;
use crate::objects::{pool_of, Object};
use crate::random::Random;
use crate::realistic::realistic;
use crate::shape::SHORTEST_RECORD;
use second::{Kind, MAX_POOL_BYTES};

/// Bytes that are left for a last record, which fills them.
const FILLED: usize = 40;
const SHORTEST_PRESENTATION: usize = 15;
/// Draws the pools with a breach.
const BREACHED: u64 = 11783;
/// How many pools there are for each way to breach a rule.
const BREACHES_EACH: usize = 200;

pub struct Fixed {
    pub name: String,
    /// Bytes of both areas.
    pub area: usize,
    pub calls: Vec<Call>,
    /// The numbers that the last calls give, known beforehand.
    pub last: Vec<u32>,
}

pub fn lists(long: bool) -> Vec<Fixed> {
    let mut lists = vec![worked_line(), many_calls()];
    let longest = pool_of(&longest());
    let short = pool_of(&realistic(3_000));
    for (name, pool, length) in [
        ("P in single bytes", &pool_p(), 1),
        ("Q in single bytes", &pool_q(), 1),
        ("Q in pieces of 7", &pool_q(), 7),
        ("3,000 bytes in single bytes", &short, 1),
        ("65,535 bytes in pieces of 7", &longest, 7),
        ("65,535 bytes in one piece", &longest, longest.len()),
    ] {
        lists.push(sending(name, pool, length));
    }
    if long {
        lists.push(sending("65,535 bytes in single bytes", &longest, 1));
    }
    lists.extend(each_breach());
    lists
}

/// Pools with a breach, in one piece: every kind of record is at fault in the
/// first place several times.
fn each_breach() -> impl Iterator<Item = Fixed> {
    (0..BREACHES_EACH * WAYS).filter_map(|index| {
        let random = &mut Random::for_item(BREACHED, index as u64);
        let mut objects = accepted::objects(random);
        breach_in_way(index % WAYS, random, &mut objects);
        let pool = pool_of(&objects);
        let length = pool.len();
        let calls = vec![
            Call::Offer(length),
            Call::Transfer(pool),
            Call::Activate(ENTRY_WORDS * objects.len()),
        ];
        let list = Fixed {
            name: format!("breach {index}"),
            area: length,
            calls,
            last: vec![0, 0, 24],
        };
        (length <= MAX_POOL_BYTES).then_some(list)
    })
}

/// The records of a sound pool of the greatest length.
pub fn longest() -> Vec<Object> {
    let mut objects = realistic(MAX_POOL_BYTES - FILLED);
    let free = MAX_POOL_BYTES - pool_of(&objects).len() - SHORTEST_PRESENTATION;
    let mut last = Object::plain(Kind::Dvp, objects.len() as u16);
    // Two bytes per character, so that few characters fill many bytes.
    last.texts[0] = ["ü".repeat(free / 2), "a".repeat(free % 2)]
        .concat()
        .into_bytes();
    objects.push(last);
    objects
}

/// Sends the pool in pieces of this length and activates it, first without a
/// table.
fn sending(name: &str, pool: &[u8], length: usize) -> Fixed {
    let mut calls = vec![Call::Offer(pool.len())];
    calls.extend(
        pool.chunks(length)
            .map(|piece| Call::Transfer(piece.into())),
    );
    calls.push(Call::Transfer(vec![0]));
    calls.push(Call::Activate(0));
    let entries = pool.len() / SHORTEST_RECORD;
    calls.push(Call::Activate(ENTRY_WORDS * entries));
    Fixed {
        name: name.into(),
        area: pool.len(),
        calls,
        last: vec![22, 7, 0],
    }
}

fn worked_line() -> Fixed {
    Fixed {
        name: "Q announced as 71, first 44 sent, activate".into(),
        area: 71,
        calls: vec![
            Call::Offer(71),
            Call::Transfer(pool_q()[..44].into()),
            Call::Activate(4 * ENTRY_WORDS),
        ],
        last: vec![0, 0, 23],
    }
}

/// All kinds of calls, with refusals in between.
fn many_calls() -> Fixed {
    let (p, q) = (pool_p(), pool_q());
    let piece = |bytes: &[u8]| Call::Transfer(bytes.to_vec());
    let calls = vec![
        (Call::Activate(4 * ENTRY_WORDS), 21),
        (piece(&q), 21),
        (Call::Deactivate, 25),
        (Call::Offer(0), 20),
        (Call::Offer(65_536), 20),
        (Call::Offer(81), 26),
        (Call::Offer(71), 0),
        (piece(&[]), 22),
        (piece(&q[..70]), 0),
        (piece(&q[69..]), 22),
        (Call::Activate(4 * ENTRY_WORDS), 23),
        (piece(&q[70..]), 0),
        (Call::Activate(4 * ENTRY_WORDS - 1), 7),
        (Call::Activate(4 * ENTRY_WORDS), 0),
        (Call::Offer(59), 0),
        (piece(&q[..7]), 0),
        (Call::Offer(81), 26),
        (Call::Offer(59), 0),
        (piece(&q[..59]), 0),
        (Call::Activate(4 * ENTRY_WORDS), 24),
        (Call::Deactivate, 0),
        (Call::Activate(0), 0),
        (Call::Offer(70), 0),
        (piece(&q[..70]), 0),
        (Call::Activate(0), 4),
        (Call::Offer(44), 0),
        (Call::Lost, 0),
        (Call::Offer(44), 0),
        (piece(&p), 0),
        (Call::Activate(2 * ENTRY_WORDS), 0),
        (Call::Delete, 0),
        (Call::Activate(2 * ENTRY_WORDS), 21),
    ];
    let (calls, numbers): (Vec<Call>, Vec<u32>) = calls.into_iter().unzip();
    Fixed {
        name: "many calls".into(),
        area: 80,
        calls,
        last: numbers,
    }
}

#[cfg(test)]
mod tests {
    use super::*;
    use second::Record;

    #[test]
    fn the_longest_pool_is_the_longest_and_sound() {
        let pool = pool_of(&longest());
        assert_eq!(pool.len(), MAX_POOL_BYTES);
        let mut table = vec![Record::default(); pool.len() / SHORTEST_RECORD];
        assert_eq!(second::check(&pool, &mut table, &mut []), Ok(0));
    }
}
