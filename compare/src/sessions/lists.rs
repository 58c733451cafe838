//! Seeded lists of session calls.

use super::call::Call;
use super::client::Client;
use super::library::Value;
use crate::accepted;
use crate::fixed::{pool_p, pool_q};
use crate::generated;
use crate::library::ENTRY_WORDS;
use crate::objects::pool_of;
use crate::random::Random;
use crate::shape::SHORTEST_RECORD;
use second::{Record, MAX_POOL_BYTES};

/// One list in this many is patient: it sends whole pools in small pieces and
/// is longer.
const PATIENT_ONE_IN: usize = 60;
/// The greatest length of a patient list's pools.
const PATIENT_BYTES: usize = 600;

/// How a client cuts its pools.
#[derive(Clone, Copy)]
enum Pieces {
    /// Pieces of this length, after a longer one that leaves a few of them.
    Of(usize),
    /// All pieces have this length.
    All(usize),
    Whole,
    Any,
}

/// A list that is being drawn: each call depends on the value before it.
pub struct List {
    random: Random,
    pools: Vec<Vec<u8>>,
    /// The pool that is being sent.
    sent: usize,
    pieces: Pieces,
    /// How many calls are still to come.
    calls: usize,
}

impl List {
    /// The list of this index in the run of this seed, and its client.
    pub fn new(seed: u64, index: u64) -> (Self, Client) {
        let mut random = Random::for_item(seed ^ 0x5E55, index);
        let patient = random.one_in(PATIENT_ONE_IN);
        let mut pools: Vec<Vec<u8>> = (0..random.between(1, 3))
            .map(|_| pool(&mut random))
            .collect();
        let (pieces, calls) = if patient {
            pools.retain(|pool| pool.len() <= PATIENT_BYTES);
            pools.push(pool_q());
            (Pieces::All(random.pick(&[1, 7, 7])), 160)
        } else {
            let pieces = [
                Pieces::Of(1),
                Pieces::Of(7),
                Pieces::Whole,
                Pieces::Whole,
                Pieces::Any,
            ];
            (random.pick(&pieces), random.between(5, 30))
        };
        let client = client(&mut random, &pools);
        let list = List {
            random,
            pools,
            sent: 0,
            pieces,
            calls,
        };
        (list, client)
    }

    /// The next call, or `None` at the end of the list.
    pub fn next(&mut self, value: &Value, staging: &[u8], kept: &[u8]) -> Option<Call> {
        self.calls = self.calls.checked_sub(1)?;
        let patient = matches!(self.pieces, Pieces::All(_));
        let whim = !patient || self.random.one_in(8);
        let roll = if whim { self.random.below(100) } else { 0 };
        let offered = value.stage == 1;
        let complete = value.received == value.announced;
        Some(match (offered, complete, roll) {
            (false, _, 0..=49) => self.offer(staging, kept),
            (false, _, 50..=54) => self.transfer(value),
            (false, _, 55..=76) => self.activate(value, staging),
            (false, _, 77..=88) => Call::Deactivate,
            (true, false, 0..=69) => self.transfer(value),
            (true, false, 70..=79) => self.activate(value, staging),
            (true, false, 80..=88) => self.offer(staging, kept),
            (true, true, 0..=69) => self.activate(value, staging),
            (true, true, 70..=78) => self.transfer(value),
            (true, true, 79..=88) => self.offer(staging, kept),
            (true, _, 89..=92) => Call::Deactivate,
            (_, _, 93..=95) => Call::Delete,
            _ => Call::Lost,
        })
    }

    /// Mostly a pool's length; also less, more, and sizes at and over every
    /// limit, including some that would be right without their upper bits.
    fn offer(&mut self, staging: &[u8], kept: &[u8]) -> Call {
        let random = &mut self.random;
        self.sent = random.below(self.pools.len());
        let length = self.pools[self.sent].len();
        let area = random.pick(&[staging.len(), kept.len(), staging.len().min(kept.len())]);
        let cut = random.between(0, length);
        Call::Offer(match random.below(40) {
            0 | 1 => 0,
            2 | 3 => cut,
            4 => length + random.between(1, 5),
            5 | 6 => area,
            7 => area + 1,
            8 => area + random.between(2, 500),
            9 => random.pick(&[MAX_POOL_BYTES, MAX_POOL_BYTES + 1, usize::MAX]),
            10 => (MAX_POOL_BYTES + 1) * random.pick(&[1, 1, 1 << 8, 1 << 16]) + length,
            11 => random.between(1, 30),
            _ => length,
        })
    }

    /// Mostly the next bytes of the pool, and random ones after its end.
    fn transfer(&mut self, value: &Value) -> Call {
        let rest = value.announced - value.received;
        let length = self.piece_length(rest as usize);
        let pool = &self.pools[self.sent];
        let received = value.received as usize;
        let mut piece: Vec<u8> = pool.iter().skip(received).copied().collect();
        piece.truncate(length);
        piece.resize_with(length, || self.random.byte());
        Call::Transfer(piece)
    }

    fn piece_length(&mut self, rest: usize) -> usize {
        let random = &mut self.random;
        match random.below(24) {
            0 => return 0,
            1 => return rest + 1,
            2 if random.one_in(20) => return rest + MAX_POOL_BYTES + 1,
            2 => return rest + random.between(1, 200),
            _ if rest == 0 => return random.pick(&[1, 7]),
            _ => {}
        }
        match self.pieces {
            Pieces::Of(length) => {
                let left = length * random.between(0, 9);
                match rest.checked_sub(left) {
                    Some(first) if first > length => first,
                    _ => length.min(rest),
                }
            }
            Pieces::All(length) => length.min(rest),
            Pieces::Whole => rest,
            Pieces::Any => random.between(1, rest),
        }
    }

    fn activate(&mut self, value: &Value, staging: &[u8]) -> Call {
        let received = value.received as usize;
        let pool = staging.get(..received).unwrap_or(staging);
        Call::Activate(table_words(&mut self.random, pool))
    }
}

/// How many words a table has, around what the pool needs: often just enough
/// or more, and sometimes ending inside an entry.
pub fn table_words(random: &mut Random, pool: &[u8]) -> usize {
    let mut table = vec![Record::default(); pool.len() / SHORTEST_RECORD];
    let needed = match second::read_pool(pool, &mut table) {
        Ok(records) => ENTRY_WORDS * records,
        Err(_) => return random.between(0, 40),
    };
    match random.below(16) {
        0 => 0,
        1 => random.between(0, needed),
        2 => needed - 1,
        3 => needed - ENTRY_WORDS,
        4..=9 => needed,
        10 => needed + 1,
        _ => needed + random.between(1, 60),
    }
}

/// A pool; over half are without a fault, as only these are activated.
pub fn pool(random: &mut Random) -> Vec<u8> {
    match random.below(20) {
        0..=2 => pool_p(),
        3 | 4 => pool_q(),
        5..=11 => pool_of(&accepted::objects(random)),
        _ => generated::input(random.draw(), 0).pool,
    }
}

/// A client with areas that mostly hold all its pools, some of them exactly.
/// Staging starts as noise or with a pool in it, so that it is noticed if bytes
/// are taken for sent that were not.
fn client(random: &mut Random, pools: &[Vec<u8>]) -> Client {
    let longest = pools.iter().map(Vec::len).max().unwrap_or(0);
    let fitting = random.below(10) < 8;
    let staging = area_length(random, longest, fitting);
    let kept = area_length(random, longest, fitting);
    let mut staging = noise(random, staging);
    let kept = noise(random, kept);
    if random.one_in(4) {
        lay(&mut staging, &pools[0]);
    }
    Client::new(&staging, &kept)
}

fn area_length(random: &mut Random, longest: usize, fitting: bool) -> usize {
    let more = random.pick(&[0, 0, 1, 40, 200]);
    if fitting {
        return longest + random.between(0, more);
    }
    match random.below(8) {
        0 => 0,
        1 => random.between(1, 60),
        2 => longest.saturating_sub(1),
        3 if random.one_in(8) => random.pick(&[MAX_POOL_BYTES, MAX_POOL_BYTES + 1, 70_000]),
        4 => random.between(0, longest),
        _ => longest + random.between(0, more),
    }
}

/// Random bytes.
pub fn noise(random: &mut Random, length: usize) -> Vec<u8> {
    let mut bytes = Vec::with_capacity(length + 8);
    while bytes.len() < length {
        bytes.extend(random.draw().to_le_bytes());
    }
    bytes.truncate(length);
    bytes
}

/// Copies as much of the pool into the area as fits.
pub fn lay(area: &mut [u8], pool: &[u8]) {
    for (byte, &from) in area.iter_mut().zip(pool) {
        *byte = from;
    }
}
