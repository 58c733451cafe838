//! A message read, and a value message and an acknowledge written.

use crate::bytes::Bytes;
use compare::exchange::{read_by_both, write_by_both};
use second::Message;

/// The most bytes that are lent for a message to be written.
const LONGEST: usize = 20;

pub fn compare(bytes: &mut Bytes) -> Result<(), String> {
    let wide = bytes.wide();
    let room = usize::from(bytes.byte()) % (LONGEST + 1);
    let command = wide.number(0, bytes.byte(), 8);
    let element = wide.number(1, bytes.word(), 16);
    let ddi = bytes.word();
    let value = bytes.signed();
    let errors = bytes.byte();
    let answered = wide.number(2, bytes.byte(), 8);
    write(
        room,
        Message::Value {
            command,
            element,
            ddi,
            value,
        },
    )?;
    write(
        room,
        Message::Acknowledge {
            element,
            ddi,
            errors,
            answered,
        },
    )?;
    read(bytes.rest())
}

/// Has both sides write the message and read it back.
fn write(room: usize, message: Message) -> Result<(), String> {
    match write_by_both(message, room) {
        Ok(Ok(written)) => read(&written),
        Ok(Err(_)) => Ok(()),
        Err(what) => Err(format!("{message:?} into {room} bytes: {what}")),
    }
}

fn read(message: &[u8]) -> Result<(), String> {
    match read_by_both(message) {
        Ok(_) => Ok(()),
        Err(what) => Err(format!("reading {message:02X?}: {what}")),
    }
}
