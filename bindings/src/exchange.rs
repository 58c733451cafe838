//! Process data messages, judged commands and displayed values.

use crate::c::{self, Record};
use crate::Cause;

/// The commands of messages, by the standard's names. All but the acknowledge
/// carry a value.
pub mod commands {
    pub const REQUEST_VALUE: u8 = 2;
    pub const VALUE: u8 = 3;
    pub const TIME_INTERVAL: u8 = 4;
    pub const DISTANCE_INTERVAL: u8 = 5;
    pub const MINIMUM_WITHIN_THRESHOLD: u8 = 6;
    pub const MAXIMUM_WITHIN_THRESHOLD: u8 = 7;
    pub const CHANGE_THRESHOLD: u8 = 8;
    pub const SET_AND_ACKNOWLEDGE: u8 = 10;
    pub const ACKNOWLEDGE: u8 = 13;
}

/// The error bits of a judgement and of an acknowledge.
pub mod errors {
    /// The command does not carry a value.
    pub const COMMAND: u8 = 0x01;
    /// There is no such device element.
    pub const ELEMENT: u8 = 0x02;
    /// The element's list has no process data or property with that DDI.
    pub const DDI: u8 = 0x04;
    /// The trigger method of commands 4 to 8 is not offered.
    pub const TRIGGER: u8 = 0x08;
    /// Command 3 or 10, and the data is not settable.
    pub const SETTABLE: u8 = 0x10;
    /// Command 4 or 5 with a negative value.
    pub const INTERVAL: u8 = 0x20;
}

/// A process data message.
#[derive(Clone, Copy, Debug, PartialEq, Eq)]
pub enum Message {
    /// One of the [`commands`] that carry a value: 2 to 8 and 10.
    Value {
        command: u8,
        element: u16,
        ddi: u16,
        value: i32,
    },
    Acknowledge {
        element: u16,
        ddi: u16,
        /// Any combination of the bits in [`errors`].
        errors: u8,
        /// The command that is acknowledged, 0 to 15.
        answered: u8,
    },
}

impl Message {
    /// Reads a message of eight bytes.
    pub fn read(bytes: &[u8]) -> Result<Message, Cause> {
        let fields = c::message_read(bytes);
        Cause::check(fields.number)?;
        let (element, ddi) = (fields.element, fields.ddi);
        Ok(match fields.command {
            commands::ACKNOWLEDGE => Message::Acknowledge {
                element,
                ddi,
                errors: fields.errors,
                answered: fields.answered,
            },
            command => Message::Value {
                command,
                element,
                ddi,
                value: fields.value,
            },
        })
    }

    /// Writes the message into the first eight bytes; the others are unchanged.
    pub fn write(&self, to: &mut [u8]) -> Result<(), Cause> {
        Cause::check(match *self {
            Message::Value {
                command,
                element,
                ddi,
                value,
            } => c::message_write_value(to, command.into(), element.into(), ddi, value),
            Message::Acknowledge {
                element,
                ddi,
                errors,
                answered,
            } => c::message_write_acknowledge(to, element.into(), ddi, errors, answered.into()),
        })
    }
}

/// Judges a command to the device by its accepted pool and gives the first of
/// the [`errors`] that applies, or 0 if the device takes the command. The table
/// is filled whenever the pool is read.
pub fn judge(
    pool: &[u8],
    table: &mut [Record],
    command: u8,
    element: u16,
    ddi: u16,
    value: i32,
) -> Result<u8, Cause> {
    let mut error = 0;
    let (command, element) = (command.into(), element.into());
    let number = c::judge(pool, table, command, element, ddi, value, &mut error);
    Cause::check(number).map(|()| error)
}

/// How a value is shown, taken from a value presentation.
#[derive(Clone, Copy, Debug, PartialEq)]
pub struct Presentation {
    pub offset: i32,
    pub scale: f32,
    pub decimals: u8,
}

/// The value with the offset added and scaled, rounded once.
pub fn displayed(value: i32, presentation: Presentation) -> Result<f64, Cause> {
    let Presentation {
        offset,
        scale,
        decimals,
    } = presentation;
    let mut result = 0.0;
    let number = c::displayed(value, offset, scale, decimals.into(), &mut result);
    Cause::check(number).map(|()| result)
}

#[cfg(test)]
mod tests {
    use super::*;
    use crate::pools::q;

    #[test]
    fn messages_are_read_and_written() {
        let bytes = [0x23, 0x01, 0x8D, 0x00, 0xFF, 0xFF, 0xFF, 0xFF];
        let message = Message::Value {
            command: 3,
            element: 18,
            ddi: 141,
            value: -1,
        };
        assert_eq!(Message::read(&bytes), Ok(message));
        let mut to = [0x77; 9];
        assert_eq!(message.write(&mut to), Ok(()));
        assert_eq!((&to[..8], to[8]), (&bytes[..], 0x77));

        let acknowledge = Message::Acknowledge {
            element: 0x123,
            ddi: 0x4567,
            errors: 0x89,
            answered: 0xA,
        };
        assert_eq!(acknowledge.write(&mut to), Ok(()));
        assert_eq!(to[..8], [0x3D, 0x12, 0x67, 0x45, 0x89, 0xFA, 0xFF, 0xFF]);
        assert_eq!(Message::read(&to[..8]), Ok(acknowledge));
    }

    #[test]
    fn messages_are_refused() {
        assert_eq!(Message::read(&[3; 7]), Err(Cause::NotEightBytes));
        assert_eq!(Message::read(&[0; 8]), Err(Cause::BadCommand));
        let message = |command, element| Message::Value {
            command,
            element,
            ddi: 0,
            value: 0,
        };
        let mut to = [0x77; 8];
        let mut refusal = |message: Message, room| message.write(&mut to[..room]).unwrap_err();
        assert_eq!(refusal(message(13, 4_096), 7), Cause::BadCommand);
        assert_eq!(refusal(message(3, 4_096), 7), Cause::BadElement);
        assert_eq!(refusal(message(3, 4_095), 7), Cause::NoRoomForMessage);
        assert_eq!(to, [0x77; 8]);
    }

    #[test]
    fn commands_are_judged() {
        let table = &mut [Record::default(); 4];
        let mut judged =
            |command, element, ddi, value| judge(&q(), table, command, element, ddi, value);
        assert_eq!(judged(1, 1, 141, 1_000), Ok(errors::COMMAND));
        assert_eq!(judged(4, 2, 141, 1_000), Ok(errors::ELEMENT));
        assert_eq!(judged(4, 1, 142, 1_000), Ok(errors::DDI));
        assert_eq!(judged(3, 1, 141, 1_000), Ok(errors::SETTABLE));
        assert_eq!(judged(5, 1, 141, 1_000), Ok(errors::TRIGGER));
        assert_eq!(judged(4, 1, 141, -1), Ok(errors::INTERVAL));
        assert_eq!(judged(4, 1, 141, 1_000), Ok(0));
        assert_eq!(judged(4, 4_096, 141, 1_000), Err(Cause::BadElement));
        let faulty = judge(&q()[..59], table, 4, 1, 141, 0);
        assert_eq!(faulty, Err(Cause::Faulty));
    }

    #[test]
    fn values_are_displayed() {
        let presentation = |scale, decimals| Presentation {
            offset: -20,
            scale,
            decimals,
        };
        assert_eq!(displayed(100, presentation(0.5, 1)), Ok(40.0));
        let refused = Err(Cause::BadPresentation);
        assert_eq!(displayed(100, presentation(f32::NAN, 1)), refused);
        assert_eq!(displayed(100, presentation(0.5, 8)), refused);
    }
}
