//! Messages read and written by both sides.

use super::library::{self, number_of, Fields};
use super::vectors::{self, Asked, Line};
use crate::grid::Grid;
use crate::lent::{untouched, LentArea, LentPool};
use crate::library::Of;
use crate::part::Part;
use crate::random::Random;
use second::Message;
use std::io;

const MESSAGE_BYTES: usize = 8;
const LONGEST: usize = 16;
const ACKNOWLEDGE: usize = 13;
const GREATEST_ELEMENT: u32 = 4_095;
const GREATEST_ANSWERED: u32 = 15;
const VALUE_COMMANDS: [u32; 8] = [2, 3, 4, 5, 6, 7, 8, 10];
/// Elements around the greatest, around a half byte, and some that fit without
/// their upper bits.
const ELEMENTS: [u32; 20] = [
    0,
    1,
    15,
    16,
    17,
    18,
    255,
    256,
    2_048,
    4_094,
    4_095,
    4_096,
    4_097,
    8_191,
    32_768,
    65_535,
    65_536,
    65_554,
    0x8000_0012,
    u32::MAX,
];
/// Commands and answered commands that are in range without their upper bits.
const WIDE: [u32; 6] = [256, 259, 0x1_0003, 0x100_000A, 0x8000_0002, u32::MAX];
const NUMBERS: [i32; 7] = [i32::MIN, -2, -1, 0, 1, 256, i32::MAX];

/// The grids, by their place in the part.
const READ: usize = 0;
const VALUE: usize = 1;
const VALUE_BACK: usize = 2;
const ACK: usize = 3;
const ACK_BACK: usize = 4;

const READ_COLUMNS: &[&str] = &["0", "30 shorter", "30 longer", "31"];
/// The row of messages without a byte, which have no command.
const NO_COMMAND: usize = 16;
/// The row of all commands over 16.
const OVER_16: usize = 17;
const WRITE_COLUMNS: &[&str] = &[
    "0 in 8 bytes",
    "0 in more",
    "31",
    "31 before 32",
    "31 before 33",
    "31 before both",
    "32",
    "32 before 33",
    "33 no byte",
    "33",
];
const ACK_ROWS: [&str; 4] = ["sound", "element over 4095", "answered over 15", "both"];
const BACK_COLUMNS: &[&str] = &["as written"];

/// Fixed messages, and seeded ones to be read and to be written.
pub fn compare(seed: u64, seeded: u64) -> io::Result<Part> {
    let mut part = Part::new("messages", grids());
    for line in vectors::load()? {
        compare_line(&mut part, line);
    }
    let random = &mut Random::new(seed ^ 0x3E55);
    every_start(&mut part, random);
    every_length(&mut part, random);
    every_value_written(&mut part, random);
    every_acknowledge_written(&mut part, random);
    for _ in 0..seeded {
        read(&mut part, &random.draw().to_le_bytes());
        write(&mut part, drawn(random), MESSAGE_BYTES);
    }
    Ok(part)
}

fn grids() -> Vec<Grid> {
    let commands = |last: &str| -> Vec<String> {
        let commands = (0..16).map(|command| format!("command {command}"));
        commands.chain([last.to_owned()]).collect()
    };
    let is_read = |row: usize| carries_value(row) || row == ACKNOWLEDGE;
    let read_rows = commands("no command");
    let read = Grid::new(
        "read",
        read_rows,
        READ_COLUMNS,
        |row, column| match column {
            "0" => is_read(row),
            "31" => row != NO_COMMAND && !is_read(row),
            "30 longer" => row != NO_COMMAND,
            _ => true,
        },
    );
    let mut rows = commands("command 16");
    rows.push("command over 16".to_owned());
    let value = Grid::new("value written", rows, WRITE_COLUMNS, |row, column| {
        column.starts_with("31") != carries_value(row)
    });
    let rows = VALUE_COMMANDS.map(|command| format!("command {command}"));
    let value_back = Grid::new("value read back", rows, BACK_COLUMNS, |_, _| true);
    let title = "acknowledge written";
    let ack = Grid::new(title, ACK_ROWS, WRITE_COLUMNS, |row, column| {
        !column.starts_with("31") && column.starts_with("32") == (row != 0)
    });
    let rows = (0..=GREATEST_ANSWERED).map(|answered| format!("answered {answered}"));
    let title = "acknowledge read back";
    let ack_back = Grid::new(title, rows, BACK_COLUMNS, |_, _| true);
    vec![read, value, value_back, ack, ack_back]
}

fn carries_value(command: usize) -> bool {
    VALUE_COMMANDS.iter().any(|&it| it as usize == command)
}

/// All combinations of command and element.
fn every_start(part: &mut Part, random: &mut Random) {
    for start in 0..=u16::MAX {
        let mut message = random.draw().to_le_bytes();
        message[..2].copy_from_slice(&start.to_le_bytes());
        read(part, &message);
    }
}

fn every_length(part: &mut Part, random: &mut Random) {
    for first in 0..=u8::MAX {
        for length in 0..=LONGEST {
            let mut message: Vec<u8> = (0..length).map(|_| random.byte()).collect();
            if let Some(byte) = message.first_mut() {
                *byte = first;
            }
            read(part, &message);
        }
    }
}

fn every_value_written(part: &mut Part, random: &mut Random) {
    for command in (0..=255).chain(WIDE) {
        for element in ELEMENTS {
            for length in 0..=LONGEST {
                write(part, value_message(random, command, element), length);
            }
        }
    }
    for element in 0..=GREATEST_ELEMENT {
        for command in VALUE_COMMANDS {
            let message = value_message(random, command, element);
            write(part, message, MESSAGE_BYTES);
        }
    }
}

fn every_acknowledge_written(part: &mut Part, random: &mut Random) {
    for answered in (0..=255).chain(WIDE) {
        for element in ELEMENTS {
            for length in 0..=LONGEST {
                write(part, acknowledge(random, element, answered), length);
            }
        }
    }
    for element in 0..=GREATEST_ELEMENT {
        let answered = random.between(0, GREATEST_ANSWERED as usize) as u32;
        write(part, acknowledge(random, element, answered), MESSAGE_BYTES);
    }
}

/// Any message; about half of them can be written.
fn drawn(random: &mut Random) -> Message {
    let any = random.draw() as u16;
    let sound = u32::from(any) % (GREATEST_ELEMENT + 1);
    let element = random.pick(&[any.into(), sound, sound]);
    let element = widened(random, element);
    let any = u32::from(random.byte());
    if random.one_in(2) {
        let command = random.pick(&VALUE_COMMANDS);
        let command = widened(random, if any < 16 { any } else { command });
        value_message(random, command, element)
    } else {
        let answered = random.pick(&[any, any % 16, any % 16]);
        let answered = widened(random, answered);
        acknowledge(random, element, answered)
    }
}

/// Mostly the number as it is, otherwise with an upper bit that a narrower type
/// would lose.
fn widened(random: &mut Random, number: u32) -> u32 {
    match random.below(24) {
        0 => number | 1 << random.between(8, 31),
        1 => number | 1 << 16,
        _ => number,
    }
}

fn value_message(random: &mut Random, command: u32, element: u32) -> Message {
    let any = random.draw() as i32;
    let edge = random.pick(&NUMBERS);
    Message::Value {
        command,
        element,
        ddi: random.draw() as u16,
        value: random.pick(&[any, any, edge]),
    }
}

fn acknowledge(random: &mut Random, element: u32, answered: u32) -> Message {
    Message::Acknowledge {
        element,
        ddi: random.draw() as u16,
        errors: random.byte(),
        answered,
    }
}

fn read(part: &mut Part, message: &[u8]) {
    let command = |byte: &u8| usize::from(byte % 16);
    let row = message.first().map_or(NO_COMMAND, command);
    let outcome = read_by_both(message).map(|fields| match fields.number {
        0 => "0",
        30 if message.len() < MESSAGE_BYTES => "30 shorter",
        30 if message.len() > MESSAGE_BYTES => "30 longer",
        31 => "31",
        _ => "another number",
    });
    part.take(READ, row, outcome, || format!("reading {message:02X?}"));
}

/// The message's fields or a refusal, if both sides agree on it.
pub fn read_by_both(message: &[u8]) -> Result<Fields, String> {
    let lent = LentPool::new(message);
    let library = library::read_message(lent.bytes());
    let second = Fields::of(second::read_message(message));
    if library != second {
        Err(format!("{library:?} against {second:?}"))
    } else if lent.is_changed() {
        Err("the message was changed".into())
    } else {
        Ok(second)
    }
}

/// Has both sides write the message into `length` bytes and read it back.
fn write(part: &mut Part, message: Message, length: usize) {
    let input = || format!("writing {message:?} into {length} bytes");
    let (grid, row) = match message {
        Message::Value { command, .. } => (VALUE, (command as usize).min(OVER_16)),
        Message::Acknowledge {
            element, answered, ..
        } => {
            let bad_element = usize::from(element > GREATEST_ELEMENT);
            let bad_answered = usize::from(answered > GREATEST_ANSWERED);
            (ACK, bad_element + 2 * bad_answered)
        }
    };
    let outcome = write_by_both(message, length);
    let written = outcome.clone().ok().and_then(Result::ok);
    let column = outcome.map(|written| column(message, number_of(written.map(drop)), length));
    part.take(grid, row, column, input);
    if let Some(written) = written {
        read_back(part, message, &written);
    }
}

fn read_back(part: &mut Part, message: Message, written: &[u8]) {
    let expected = Fields::of(Ok(message));
    let outcome = read_by_both(written).and_then(|fields| match fields == expected {
        true => Ok("as written"),
        false => Err(format!("{fields:?} is read back")),
    });
    let (grid, row) = match message {
        Message::Value { command, .. } => {
            let row = VALUE_COMMANDS.iter().position(|it| *it == command);
            (VALUE_BACK, row.expect("the command was written"))
        }
        Message::Acknowledge { answered, .. } => (ACK_BACK, answered as usize),
    };
    part.take(grid, row, outcome, || format!("reading back {message:?}"));
}

/// The message's bytes or the number of the refusal, if both sides agree on it
/// and on all memory around.
pub fn write_by_both(message: Message, length: usize) -> Result<Result<Vec<u8>, u8>, String> {
    let before: Vec<u8> = untouched(length);
    let (mut ours, mut theirs) = (LentArea::new(&before), LentArea::new(&before));
    let (to, other) = (ours.contents_mut(), theirs.contents_mut());
    let (library, second) = match message {
        Message::Value {
            command,
            element,
            ddi,
            value,
        } => (
            library::write_value(to, command, element, ddi, value),
            second::write_value(other, command, element, ddi, value),
        ),
        Message::Acknowledge {
            element,
            ddi,
            errors,
            answered,
        } => (
            library::write_acknowledge(to, element, ddi, errors, answered),
            second::write_acknowledge(other, element, ddi, errors, answered),
        ),
    };
    if library != number_of(second) {
        return Err(format!("{library} against {second:?}"));
    }
    match ours.parting("the message", &theirs) {
        Some(difference) => Err(difference),
        None => Ok(second.map(|()| ours.contents()[..MESSAGE_BYTES].to_vec())),
    }
}

fn column(message: Message, number: u32, length: usize) -> &'static str {
    let (Message::Value { element, .. } | Message::Acknowledge { element, .. }) = message;
    let high = element > GREATEST_ELEMENT;
    let short = length < MESSAGE_BYTES;
    match (number, high, short) {
        (0, _, false) if length == MESSAGE_BYTES => "0 in 8 bytes",
        (0, _, false) => "0 in more",
        (31, false, false) => "31",
        (31, true, false) => "31 before 32",
        (31, false, true) => "31 before 33",
        (31, true, true) => "31 before both",
        (32, _, false) => "32",
        (32, _, true) => "32 before 33",
        (33, _, true) if length == 0 => "33 no byte",
        (33, _, true) => "33",
        _ => "another number",
    }
}

/// Compares both sides with a test vector.
fn compare_line(part: &mut Part, line: Line) {
    let given = match &line.asked {
        Asked::Read(bytes) => {
            read(part, bytes);
            read_by_both(bytes).map(vectors::fields_line)
        }
        Asked::Write(message) => {
            write(part, *message, MESSAGE_BYTES);
            write_by_both(*message, MESSAGE_BYTES).map(vectors::written_line)
        }
    };
    match given {
        Ok(given) if given == line.expected => {}
        given => part.note(
            &format!("{given:?} where {} is known", line.expected),
            || format!("vector {:?}", line.asked),
        ),
    }
}
