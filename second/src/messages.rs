//! Process data messages.

use crate::rules::MAX_ELEMENT_NUMBER;

const BAD_LENGTH: u8 = 30;
const BAD_COMMAND: u8 = 31;
const BAD_FIELD: u8 = 32;
const SHORT_BUFFER: u8 = 33;

const MESSAGE_BYTES: usize = 8;
const ACKNOWLEDGE: u32 = 0xD;
const MAX_COMMAND: u32 = 0xF;
/// Written into the upper half of byte 6 of an acknowledge, and into the bytes
/// after it.
const IGNORED_HALF: u8 = 0xF0;
const IGNORED: u8 = 0xFF;

/// A message that was read, or is to be written. Numbers with a limited range
/// have wider types than the range needs: those above it are refused, and not
/// truncated.
#[derive(Clone, Copy, Debug, PartialEq, Eq)]
pub enum Message {
    Value {
        command: u32,
        element: u32,
        ddi: u16,
        value: i32,
    },
    Acknowledge {
        element: u32,
        ddi: u16,
        errors: u8,
        answered: u32,
    },
}

/// Reads a message, or gives the number of the refusal.
pub fn read_message(bytes: &[u8]) -> Result<Message, u8> {
    let &[first, second, third, fourth, fifth, sixth, seventh, eighth] = bytes else {
        return Err(BAD_LENGTH);
    };
    let command = u32::from(first & 0xF);
    let element = u32::from(second) << 4 | u32::from(first >> 4);
    let ddi = u16::from_le_bytes([third, fourth]);
    if carries_value(command) {
        Ok(Message::Value {
            command,
            element,
            ddi,
            value: i32::from_le_bytes([fifth, sixth, seventh, eighth]),
        })
    } else if command == ACKNOWLEDGE {
        Ok(Message::Acknowledge {
            element,
            ddi,
            errors: fifth,
            answered: u32::from(sixth & 0xF),
        })
    } else {
        Err(BAD_COMMAND)
    }
}

/// Writes a message with a value to the start of `to`, or gives the number of
/// the refusal.
pub fn write_value(
    to: &mut [u8],
    command: u32,
    element: u32,
    ddi: u16,
    value: i32,
) -> Result<(), u8> {
    if !carries_value(command) {
        return Err(BAD_COMMAND);
    }
    if element > MAX_ELEMENT_NUMBER.into() {
        return Err(BAD_FIELD);
    }
    write(to, command, element, ddi, value.to_le_bytes())
}

/// Writes an acknowledge to the start of `to`, or gives the number of the
/// refusal.
pub fn write_acknowledge(
    to: &mut [u8],
    element: u32,
    ddi: u16,
    errors: u8,
    answered: u32,
) -> Result<(), u8> {
    if element > MAX_ELEMENT_NUMBER.into() || answered > MAX_COMMAND {
        return Err(BAD_FIELD);
    }
    let last = [errors, IGNORED_HALF | answered as u8, IGNORED, IGNORED];
    write(to, ACKNOWLEDGE, element, ddi, last)
}

/// Whether a command is one of those with a value.
pub(crate) fn carries_value(command: u32) -> bool {
    matches!(command, 2..=8 | 0xA)
}

/// Command and element must be in range.
fn write(to: &mut [u8], command: u32, element: u32, ddi: u16, last: [u8; 4]) -> Result<(), u8> {
    let to: &mut [u8; MESSAGE_BYTES] = to.first_chunk_mut().ok_or(SHORT_BUFFER)?;
    let [first, second, ..] = (element << 4 | command).to_le_bytes();
    let [third, fourth] = ddi.to_le_bytes();
    let [fifth, sixth, seventh, eighth] = last;
    *to = [first, second, third, fourth, fifth, sixth, seventh, eighth];
    Ok(())
}
