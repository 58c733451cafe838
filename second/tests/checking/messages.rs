//! Process data messages, by the test vectors and with all that a field can be.

use second::{read_message, write_acknowledge, write_value, Message};
use std::collections::HashMap;

const VECTORS: &str = include_str!("../../../vectors/messages.txt");
const COMMANDS: [u32; 8] = [2, 3, 4, 5, 6, 7, 8, 10];
/// The lowest 12 bits of these are 0: cut to fewer bits they would be in range.
const TOO_WIDE: [u32; 4] = [1 << 12, 1 << 16, 1 << 24, 1 << 31];

/// The lines to be read: their bytes and what is expected.
fn read_lines() -> Vec<(Vec<u8>, &'static str)> {
    let lines = VECTORS.lines().filter(|line| !line.starts_with('#'));
    lines
        .filter(|line| !line.starts_with("write "))
        .map(|line| {
            let parts: Vec<&str> = line.split('|').map(str::trim).collect();
            let [bytes, _, expected] = parts[..] else {
                panic!("{line}");
            };
            (hex(bytes), expected)
        })
        .collect()
}

fn hex(text: &str) -> Vec<u8> {
    let digits = (0..text.len()).step_by(2);
    digits
        .map(|at| u8::from_str_radix(&text[at..at + 2], 16).unwrap())
        .collect()
}

/// Fields as they are named in the vectors.
fn fields(text: &str) -> HashMap<&str, i64> {
    let pairs = text.split_whitespace();
    pairs
        .filter_map(|pair| pair.split_once('='))
        .map(|(name, number)| (name, number.parse().unwrap()))
        .collect()
}

fn described(result: Result<Message, u8>) -> String {
    match result {
        Ok(Message::Value {
            command,
            element,
            ddi,
            value,
        }) => format!("cmd={command} elem={element} ddi={ddi} value={value}"),
        Ok(Message::Acknowledge {
            element,
            ddi,
            errors,
            answered,
        }) => format!("cmd=13 elem={element} ddi={ddi} err={errors} answered={answered}"),
        Err(number) => format!("refused {number}"),
    }
}

/// Writes what a line asks for into the lent bytes.
fn write(line: &str, to: &mut [u8]) -> Result<(), u8> {
    let fields = fields(line);
    let (element, ddi) = (fields["elem"] as u32, fields["ddi"] as u16);
    if line.starts_with("write value") {
        let command = fields["cmd"] as u32;
        write_value(to, command, element, ddi, fields["value"] as i32)
    } else {
        let (errors, answered) = (fields["err"] as u8, fields["answered"] as u32);
        write_acknowledge(to, element, ddi, errors, answered)
    }
}

#[test]
fn every_vector_is_read() {
    let lines = read_lines();
    assert_eq!(lines.len(), 25);
    for (bytes, expected) in lines {
        assert_eq!(described(read_message(&bytes)), expected);
    }
}

#[test]
fn every_vector_is_written() {
    let lines = VECTORS.lines().filter(|line| line.starts_with("write "));
    let lines: Vec<_> = lines.map(|line| line.split_once('|').unwrap()).collect();
    assert_eq!(lines.len(), 15);
    for (line, expected) in lines {
        let mut to = [0xA5; 11];
        let written = write(line, &mut to);
        match expected.trim().strip_prefix("refused ") {
            Some(number) => {
                assert_eq!(written, Err(number.parse().unwrap()), "{line}");
                assert_eq!(to, [0xA5; 11], "{line}");
            }
            None => {
                assert_eq!(written, Ok(()), "{line}");
                assert_eq!(to[..8], hex(expected.trim()), "{line}");
                assert_eq!(to[8..], [0xA5; 3], "{line}");
            }
        }
    }
}

#[test]
fn the_worked_message_is_read() {
    let bytes = [0x23, 0x01, 0x8D, 0x00, 0xFF, 0xFF, 0xFF, 0xFF];
    let expected = Message::Value {
        command: 3,
        element: 18,
        ddi: 141,
        value: -1,
    };
    assert_eq!(read_message(&bytes), Ok(expected));
}

#[test]
fn all_lengths_but_8_are_30_before_31() {
    for first in 0..=255 {
        for length in (0..20).filter(|&length| length != 8) {
            assert_eq!(read_message(&vec![first; length]), Err(30));
        }
    }
}

#[test]
fn every_command_and_element_is_read() {
    for first in 0..=255_u8 {
        for second in 0..=255_u8 {
            let bytes = [first, second, 0x34, 0x12, 0x78, 0x56, 0x34, 0x92];
            let command = u32::from(first % 16);
            let element = u32::from(first / 16) + 16 * u32::from(second);
            let (ddi, value) = (0x1234, 0x9234_5678_u32 as i32);
            let expected = match command {
                13 => Ok(Message::Acknowledge {
                    element,
                    ddi,
                    errors: 0x78,
                    answered: 6,
                }),
                _ if COMMANDS.contains(&command) => Ok(Message::Value {
                    command,
                    element,
                    ddi,
                    value,
                }),
                _ => Err(31),
            };
            assert_eq!(read_message(&bytes), expected);
        }
    }
}

#[test]
fn what_is_written_is_read_back() {
    for command in COMMANDS {
        for element in 0..=4_095 {
            for (ddi, value) in [(0, i32::MIN), (258, -2), (65_535, i32::MAX)] {
                let mut to = [0; 8];
                assert_eq!(write_value(&mut to, command, element, ddi, value), Ok(()));
                let expected = Message::Value {
                    command,
                    element,
                    ddi,
                    value,
                };
                assert_eq!(read_message(&to), Ok(expected));
            }
        }
    }
    for element in [0, 15, 16, 4_095] {
        for (errors, answered) in (0..=255).flat_map(|it| (0..16).map(move |by| (it, by))) {
            let mut to = [0; 8];
            let written = write_acknowledge(&mut to, element, 513, errors, answered);
            assert_eq!(written, Ok(()));
            assert_eq!(to[5..], [0xF0 + answered as u8, 0xFF, 0xFF]);
            let expected = Message::Acknowledge {
                element,
                ddi: 513,
                errors,
                answered,
            };
            assert_eq!(read_message(&to), Ok(expected));
        }
    }
}

#[test]
fn refusals_to_write_come_in_order_and_leave_the_buffer() {
    for length in 0..12 {
        let short = if length < 8 { Err(33) } else { Ok(()) };
        for command in (0..=260).chain(TOO_WIDE.map(|upper| upper + 3)) {
            let known = COMMANDS.contains(&command);
            let bad = [8_191, 65_535, 65_554].into_iter().chain(TOO_WIDE);
            let elements = bad.map(|element| (element, Err(32)));
            for (element, fits) in elements.chain([(4_095, short)]) {
                let mut to = vec![0xA5; length];
                let expected = if known { fits } else { Err(31) };
                assert_eq!(write_value(&mut to, command, element, 0, 0), expected);
                assert!(expected.is_ok() || to == vec![0xA5; length]);
            }
        }
        for answered in (0..=260).chain(TOO_WIDE) {
            for element in [0, 4_095, 8_191, 65_535].into_iter().chain(TOO_WIDE) {
                let mut to = vec![0xA5; length];
                let fits = element < 4_096 && answered < 16;
                let expected = if fits { short } else { Err(32) };
                let written = write_acknowledge(&mut to, element, 0, 0, answered);
                assert_eq!(written, expected);
                assert!(expected.is_ok() || to == vec![0xA5; length]);
            }
        }
    }
}
