//! Messages and displayed values, many at a time.

use super::items;
use super::keep;
use super::table::{Group, Unit};
use crate::exchange::{displayed, read_message, write_value, Fields};
use crate::library::Of;
use crate::random::Random;
use second::Message;
use std::hint::black_box;

const SEED: u64 = 11783;
/// Items of a round and how often they are worked through, which makes a round
/// long compared with the clock's resolution.
const ITEMS: usize = 1_000;
const REPEATS: usize = 50;

const DECIMALS: u32 = 2;
const VALUE_COMMANDS: [u32; 8] = [2, 3, 4, 5, 6, 7, 8, 10];

struct Item {
    bytes: [u8; 8],
    command: u32,
    element: u32,
    ddi: u16,
    value: i32,
    offset: i32,
    scale: f32,
}

impl Item {
    fn draw(random: &mut Random) -> Self {
        let mut bytes = [0; 8];
        let command = random.pick(&VALUE_COMMANDS);
        let element = random.between(0, 4_095) as u32;
        let ddi = random.draw() as u16;
        let value = random.draw() as i32;
        write_value(&mut bytes, command, element, ddi, value);
        Item {
            bytes,
            command,
            element,
            ddi,
            value,
            offset: random.draw() as i32,
            scale: random.pick(&[0.001, 0.01, 0.1, 0.5, 1.0, 3.6]),
        }
    }

    /// Has both sides do all work once.
    fn compare(&self) -> Result<(), String> {
        let fields = read_message(&self.bytes);
        let (mut ours, mut theirs) = ([0; 8], [0; 8]);
        let Item {
            command,
            element,
            ddi,
            value,
            offset,
            scale,
            ..
        } = *self;
        let written = write_value(&mut ours, command, element, ddi, value);
        let also = second::write_value(&mut theirs, command, element, ddi, value);
        let mut shown = 0.0;
        let number = displayed(value, offset, scale, DECIMALS, &mut shown);
        let expected = second::displayed(value, offset, scale, DECIMALS);
        if fields != Fields::of(second::read_message(&self.bytes)) {
            Err(format!("reading {:02X?}", self.bytes))
        } else if ours != theirs || (written, also) != (0, Ok(())) {
            Err(format!("writing {:02X?}", self.bytes))
        } else if (number, expected.map(f64::to_bits)) != (0, Ok(shown.to_bits())) {
            Err(format!("displaying {value}"))
        } else {
            Ok(())
        }
    }

    fn read_by_library(&self) {
        keep(read_message(black_box(&self.bytes[..])));
    }

    fn read_by_second(&self) {
        keep(read_by_call(black_box(&self.bytes[..])));
    }

    fn write_by_library(&self) {
        let mut to = [0; 8];
        keep(write_value(
            black_box(&mut to),
            self.command,
            self.element,
            self.ddi,
            self.value,
        ));
        keep(to);
    }

    fn write_by_second(&self) {
        let mut to = [0; 8];
        keep(second::write_value(
            black_box(&mut to),
            self.command,
            self.element,
            self.ddi,
            self.value,
        ));
        keep(to);
    }

    fn display_by_library(&self) {
        let mut result = 0.0;
        keep(displayed(
            self.value,
            self.offset,
            self.scale,
            DECIMALS,
            &mut result,
        ));
        keep(result);
    }

    fn display_by_second(&self) {
        keep(second::displayed(
            self.value,
            self.offset,
            self.scale,
            DECIMALS,
        ));
    }
}

/// Such a short function would be inlined into the loop, whereas all others are
/// called, on both sides.
#[inline(never)]
fn read_by_call(bytes: &[u8]) -> Result<Message, u8> {
    second::read_message(bytes)
}

pub fn bench() -> Result<Group, String> {
    let random = &mut Random::new(SEED);
    let items: Vec<Item> = (0..ITEMS).map(|_| Item::draw(random)).collect();
    items.iter().try_for_each(Item::compare)?;
    let read = (Item::read_by_library, Item::read_by_second);
    let write = (Item::write_by_library, Item::write_by_second);
    let display = (Item::display_by_library, Item::display_by_second);
    Ok(Group {
        name: "messages",
        of: "call".into(),
        unit: Unit::Nanoseconds,
        beside: items::RATE,
        rows: vec![
            items::bench("message read", &items, REPEATS, read.0, read.1),
            items::bench("value message written", &items, REPEATS, write.0, write.1),
            items::bench("displayed value", &items, REPEATS, display.0, display.1),
        ],
    })
}
