//! Messages, judgements and displayed values of the proved static library,
//! through its bindings.

pub use lachsbrille::c::{
    displayed, message_read as read_message, message_write_acknowledge as write_acknowledge,
    message_write_value as write_value, MessageFields as Fields,
};

use crate::library::Of;
use lachsbrille::c::{self, Record as TableEntry};
use second::{Message, Record};

/// The command of an acknowledge.
const ACKNOWLEDGE: u8 = 13;

/// A command to a device.
#[derive(Clone, Copy, Debug)]
pub struct Order {
    pub command: u32,
    pub element: u32,
    pub ddi: u16,
    pub value: i32,
}

/// An error byte, or a refusal's number with error 0.
#[derive(Clone, Copy, Debug, PartialEq, Eq)]
pub struct Judgement {
    pub number: u32,
    pub error: u8,
    /// Whether the bytes around the error are unchanged.
    pub apart: bool,
}

impl Of<Result<Message, u8>> for Fields {
    fn of(result: Result<Message, u8>) -> Self {
        match result {
            Ok(Message::Value {
                command,
                element,
                ddi,
                value,
            }) => Fields {
                command: within(command),
                element: within(element),
                ddi,
                value,
                ..Fields::default()
            },
            Ok(Message::Acknowledge {
                element,
                ddi,
                errors,
                answered,
            }) => Fields {
                command: ACKNOWLEDGE,
                element: within(element),
                ddi,
                errors,
                answered: within(answered),
                ..Fields::default()
            },
            Err(number) => Fields {
                number: number.into(),
                ..Fields::default()
            },
        }
    }
}

/// Converts a number of a message that was read or written, which is in range.
fn within<Number: TryFrom<u32>>(number: u32) -> Number {
    let number = Number::try_from(number).ok();
    number.expect("a message holds numbers in their ranges")
}

impl Order {
    /// The library's judgement; the table consists of words.
    pub fn judge_by_library(self, pool: &[u8], table: &mut [u16]) -> Judgement {
        const BESIDE: u8 = 0xA5;
        let mut lent = [BESIDE; 3];
        let number = c::judge(
            pool,
            TableEntry::table(table),
            self.command,
            self.element,
            self.ddi,
            self.value,
            &mut lent[1],
        );
        Judgement {
            number,
            error: lent[1],
            apart: lent[0] == BESIDE && lent[2] == BESIDE,
        }
    }

    /// The second implementation's judgement in the library's form.
    pub fn judge_by_second(self, pool: &[u8], table: &mut [Record]) -> Judgement {
        let Order {
            command,
            element,
            ddi,
            value,
        } = self;
        let result = second::judge(pool, table, command, element, ddi, value);
        Judgement {
            number: result.err().unwrap_or(0).into(),
            error: result.unwrap_or(0),
            apart: true,
        }
    }
}

/// The same number in the library's form.
pub fn number_of(result: Result<(), u8>) -> u32 {
    result.err().unwrap_or(0).into()
}
