//! Lists of session calls, and single calls on any value.

use crate::bytes::Bytes;
use compare::lent::untouched;
use compare::library::ENTRY_WORDS;
use compare::sessions::{Call, Client, Sides, Value};
use compare::shape::SHORTEST_RECORD;
use second::{Record, MAX_POOL_BYTES};

pub const MOST_CALLS: usize = 40;
pub const CALL_BYTES: usize = 4;
/// Bytes before the calls of a list: both areas and the count of calls.
pub const LIST_START: usize = 3;
/// Bytes of the arguments of a call on a value.
pub const VALUE_ARGUMENTS: usize = 21;
/// Areas are not much longer than this, whatever a value says.
const LONGEST_AREA: usize = MAX_POOL_BYTES + 200;

/// How many of these bytes are a list's arguments.
pub fn list_arguments(bytes: &[u8]) -> usize {
    let count = bytes.get(LIST_START - 1).map_or(0, |&count| count.into());
    LIST_START + CALL_BYTES * (count % (MOST_CALLS + 1))
}

/// All calls send parts of one pool.
pub fn compare_list(bytes: &mut Bytes) -> Result<(), String> {
    let (more_staging, more_kept) = (bytes.more(), bytes.more());
    let count = usize::from(bytes.byte()) % (MOST_CALLS + 1);
    let calls: Vec<Plan> = (0..count).map(|_| Plan::take(bytes)).collect();
    let pool = bytes.rest();
    let staging: Vec<u8> = untouched(pool.len().saturating_add_signed(more_staging));
    let kept: Vec<u8> = untouched(pool.len().saturating_add_signed(more_kept));
    let mut client = Client::new(&staging, &kept);
    if !client.is_new() {
        return Err(format!("the new value is {:?}", client.value));
    }
    for plan in calls {
        let call = plan.call(&client.value, pool, client.sides.staging());
        if let Err(what) = client.call(call) {
            return Err(format!("{what}\n{}", client.trace()));
        }
    }
    Ok(())
}

/// Staging starts with the pool.
pub fn compare_value(bytes: &mut Bytes) -> Result<(), String> {
    let (stage, active) = (bytes.byte(), bytes.byte());
    let sizes = [bytes.number(), bytes.number(), bytes.number()];
    let wide = bytes.byte();
    let has = |bit: u8| wide >> bit & 1;
    // Numbers that would be right without their upper bits.
    let size = |place: u8| sizes[usize::from(place)] | u32::from(has(place)) << 31;
    let value = Value {
        announced: size(0),
        received: size(1),
        kept: size(2),
        stage: u16::from(stage) | u16::from(has(3)) << 8,
        active: u16::from(active) | u16::from(has(4)) << 8,
    };
    let area = |size: u32, more: isize| -> Vec<u8> {
        let size = (size as usize).min(LONGEST_AREA);
        untouched(size.saturating_add_signed(more))
    };
    let mut staging = area(value.announced, bytes.more());
    let kept = area(value.announced.max(value.kept), bytes.more());
    let plan = Plan::take(bytes);
    let pool = bytes.rest();
    for (byte, &sent) in staging.iter_mut().zip(pool) {
        *byte = sent;
    }
    let call = plan.call(&value, pool, &staging);
    let mut sides = Sides::new(&staging, &kept);
    let outcome = sides.call(value, &call).map(drop);
    outcome.map_err(|what| format!("{what}\n{value:?}\n{call}"))
}

/// A call whose lengths depend on the value it is made on.
struct Plan {
    kind: u8,
    word: u16,
    byte: u8,
}

impl Plan {
    fn take(bytes: &mut Bytes) -> Self {
        Plan {
            kind: bytes.byte(),
            word: bytes.word(),
            byte: bytes.byte(),
        }
    }

    fn call(&self, value: &Value, pool: &[u8], staging: &[u8]) -> Call {
        let word = usize::from(self.word);
        let more = isize::from(self.byte as i8);
        let (announced, received) = (value.announced as usize, value.received as usize);
        let rest = announced.wrapping_sub(received);
        match self.kind % 8 {
            0 => Call::Offer(match self.byte % 4 {
                0 => pool.len().saturating_add_signed((self.word as i16).into()),
                1 => word,
                2 => word << 16 | pool.len(),
                _ => MAX_POOL_BYTES.saturating_add_signed((self.word as i16).into()),
            }),
            1 => Call::Transfer(piece(pool, received, word)),
            2 => {
                let length = rest.min(LONGEST_AREA).saturating_add_signed(more);
                Call::Transfer(piece(pool, received, length))
            }
            3 => Call::Transfer(piece(pool, word, self.byte.into())),
            4 => {
                let sent = staging.get(..announced).unwrap_or(staging);
                Call::Activate(ENTRY_WORDS * records(sent).saturating_add_signed(more))
            }
            5 => Call::Deactivate,
            6 => Call::Delete,
            _ => Call::Lost,
        }
    }
}

/// `length` bytes of the pool from a place on, and zeros after its end.
fn piece(pool: &[u8], from: usize, length: usize) -> Vec<u8> {
    let sent = pool.get(from..).unwrap_or(&[]);
    let mut piece = sent[..length.min(sent.len())].to_vec();
    piece.resize(length, 0);
    piece
}

/// How many records a pool has, 0 if it is not read.
fn records(pool: &[u8]) -> usize {
    let mut table = vec![Record::default(); pool.len() / SHORTEST_RECORD];
    second::read_pool(pool, &mut table).unwrap_or(0)
}
