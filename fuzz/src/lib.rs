//! Calls of the proved library that a fuzzer's bytes stand for, each made by
//! both sides: the answers and all lent memory have to be the same.
//!
//! The first byte is the group of calls, then follow their arguments at fixed
//! places, and last the bytes that the calls are about. The first argument of
//! a group with numbers that may be out of range is a byte of their upper bits.
//! Lengths of lists are given as the difference from what is needed, so that a
//! 0 just fits.

mod bytes;
pub mod corpus;
mod displayed;
mod filler;
#[cfg(libfuzzer)]
mod libfuzzer;
mod logs;
mod messages;
pub mod mutation;
mod pools;
pub mod seeds;
mod sessions;
mod texts;
mod written;

use bytes::Bytes;

/// The groups of calls, by the first byte of an input.
#[derive(Clone, Copy, Debug, PartialEq, Eq)]
pub enum Group {
    /// Reading, checking, a text, the labels, a judgement and the fields of
    /// some records of one pool.
    Pool,
    /// A list of session calls from a new session on.
    Session,
    /// A session call on any value.
    Value,
    Message,
    Displayed,
    /// A log record and a log read from the same bytes.
    Log,
    /// A log record written and read back.
    Written,
    Text,
}

pub const GROUPS: [Group; 8] = [
    Group::Pool,
    Group::Session,
    Group::Value,
    Group::Message,
    Group::Displayed,
    Group::Log,
    Group::Written,
    Group::Text,
];

impl Group {
    /// The group of an input; an empty one is of the first.
    pub fn of(input: &[u8]) -> Self {
        let first = input.first().map_or(0, |&byte| usize::from(byte));
        GROUPS[first % GROUPS.len()]
    }
}

/// Has both sides make the input's calls, and says where they differ.
pub fn compare(input: &[u8]) -> Result<(), String> {
    let bytes = &mut Bytes::new(input.get(1..).unwrap_or(&[]));
    match Group::of(input) {
        Group::Pool => pools::compare(bytes),
        Group::Session => sessions::compare_list(bytes),
        Group::Value => sessions::compare_value(bytes),
        Group::Message => messages::compare(bytes),
        Group::Displayed => displayed::compare(bytes),
        Group::Log => logs::compare(bytes),
        Group::Written => written::compare(bytes),
        Group::Text => texts::compare(bytes),
    }
}

/// Where the pool begins in an input, if its group is about one.
fn pool_at(input: &[u8]) -> Option<usize> {
    let at = match Group::of(input) {
        Group::Pool => 1 + pools::ARGUMENTS,
        Group::Session => 1 + sessions::list_arguments(&input[1..]),
        Group::Value => 1 + sessions::VALUE_ARGUMENTS,
        _ => return None,
    };
    (at <= input.len()).then_some(at)
}
