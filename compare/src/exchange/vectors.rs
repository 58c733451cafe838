//! The test vectors of messages.

use super::library::Fields;
use second::Message;
use std::fs;
use std::io;

const FILE: &str = concat!(env!("CARGO_MANIFEST_DIR"), "/../vectors/messages.txt");

/// What both sides are asked, and what they must answer.
pub struct Line {
    pub asked: Asked,
    pub expected: String,
}

#[derive(Debug)]
pub enum Asked {
    Read(Vec<u8>),
    Write(Message),
}

pub fn load() -> io::Result<Vec<Line>> {
    let text = fs::read_to_string(FILE)?;
    let lines = text.lines().filter(|line| !line.starts_with('#'));
    lines
        .map(|line| parse(line).ok_or_else(|| io::Error::other(format!("{FILE}: {line}"))))
        .collect()
}

fn parse(line: &str) -> Option<Line> {
    let (asked, expected) = line.rsplit_once('|')?;
    let expected = expected.trim().to_owned();
    let asked = if asked.starts_with("write ") {
        Asked::Write(parse_message(asked)?)
    } else {
        Asked::Read(parse_hex(asked.split_once('|')?.0.trim())?)
    };
    Some(Line { asked, expected })
}

fn parse_message(text: &str) -> Option<Message> {
    let field = |name: &str| -> Option<i64> {
        let pairs = text.split_whitespace().filter_map(|it| it.split_once('='));
        let mut numbers = pairs.filter(|(it, _)| *it == name);
        numbers.next()?.1.parse().ok()
    };
    let element = field("elem")?.try_into().ok()?;
    let ddi = field("ddi")?.try_into().ok()?;
    Some(if text.starts_with("write value ") {
        Message::Value {
            command: field("cmd")?.try_into().ok()?,
            element,
            ddi,
            value: field("value")?.try_into().ok()?,
        }
    } else {
        Message::Acknowledge {
            element,
            ddi,
            errors: field("err")?.try_into().ok()?,
            answered: field("answered")?.try_into().ok()?,
        }
    })
}

fn parse_hex(text: &str) -> Option<Vec<u8>> {
    let places = (0..text.len()).step_by(2);
    places
        .map(|at| u8::from_str_radix(text.get(at..at + 2)?, 16).ok())
        .collect()
}

/// What was read, in the form of the vectors.
pub fn fields_line(fields: Fields) -> String {
    let Fields {
        number,
        command,
        element,
        ddi,
        value,
        errors,
        answered,
    } = fields;
    match (number, command) {
        (0, 13) => format!("cmd=13 elem={element} ddi={ddi} err={errors} answered={answered}"),
        (0, _) => format!("cmd={command} elem={element} ddi={ddi} value={value}"),
        _ => format!("refused {number}"),
    }
}

/// What was written, in the form of the vectors.
pub fn written_line(written: Result<Vec<u8>, u8>) -> String {
    match written {
        Ok(bytes) => bytes.iter().map(|byte| format!("{byte:02X}")).collect(),
        Err(number) => format!("refused {number}"),
    }
}
