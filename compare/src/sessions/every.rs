//! Every list of a few calls out of a dozen, from a new session and from one
//! with an active pool.

use super::call::Call;
use super::fixed::Fixed;
use crate::fixed::pool_p;
use crate::library::ENTRY_WORDS;

/// How many calls a list has after its start.
const LENGTH: u32 = 5;
/// Bytes of both areas: room for P and some more.
const AREA: usize = 50;
/// P's device alone lacks an element: it is read and has a fault.
const DEVICE: usize = 31;

pub fn lists() -> impl Iterator<Item = Fixed> {
    let p = pool_p();
    let calls = [
        Call::Offer(p.len()),
        Call::Offer(DEVICE),
        Call::Offer(AREA + 1),
        Call::Offer(0),
        Call::Transfer(p[..DEVICE].into()),
        Call::Transfer(p[DEVICE..].into()),
        Call::Transfer(Vec::new()),
        Call::Activate(2 * ENTRY_WORDS),
        Call::Activate(ENTRY_WORDS),
        Call::Deactivate,
        Call::Delete,
        Call::Lost,
    ];
    let active = vec![
        Call::Offer(p.len()),
        Call::Transfer(p),
        Call::Activate(2 * ENTRY_WORDS),
    ];
    let starts = [Vec::new(), active];
    let each = calls.len().pow(LENGTH);
    (0..starts.len() * each).map(move |index| {
        let mut list = starts[index / each].clone();
        let mut rest = index % each;
        for _ in 0..LENGTH {
            list.push(calls[rest % calls.len()].clone());
            rest /= calls.len();
        }
        Fixed {
            name: format!("few calls, list {index}"),
            area: AREA,
            calls: list,
            last: Vec::new(),
        }
    })
}
