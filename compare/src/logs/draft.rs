//! Drafts of log records, which both sides then read or write.

use super::library::{Fields, Record};
use super::rules::{
    width, EAST, GREATEST_EAST, GREATEST_NORTH, GREATEST_TIME, LAYOUTS, NORTH, STATUS, STATUSES,
    WIDTHS,
};
use crate::library::Of;
use crate::random::Random;
use second::LogFields;

/// Header counts around the ends of the ordinals' range.
pub const HEADER_COUNTS: [usize; 8] = [0, 1, 2, 128, 255, 256, 257, usize::MAX];
/// Layouts that are refused: bits above 8, alone and with others. The later
/// ones, except the last, would not be refused without their upper half.
pub const REFUSED_LAYOUTS: [u32; 18] = [
    512,
    513,
    1_023,
    1_024,
    2_048,
    4_096,
    8_192,
    16_384,
    32_768,
    65_024,
    65_535,
    0x1_0000,
    0x1_0001,
    0x1_01FF,
    0x2_000B,
    0x100_0155,
    0x8000_01FF,
    u32::MAX,
];
/// Times around the limit, and some with the top bit set.
pub const TIMES: [u32; 7] = [
    0,
    GREATEST_TIME - 1,
    GREATEST_TIME,
    GREATEST_TIME + 1,
    GREATEST_TIME + 2,
    1 << 31,
    u32::MAX,
];
pub const NORTHS: [i32; 9] = around(GREATEST_NORTH);
pub const EASTS: [i32; 9] = around(GREATEST_EAST);

const NUMBERS: [i32; 7] = [i32::MIN, -256, -1, 0, 1, 255, i32::MAX];

/// A record under a layout, and the number of log values in the header.
#[derive(Clone, Debug)]
pub struct Draft {
    pub layout: u32,
    pub logged: usize,
    pub fields: LogFields,
    pub ordinals: Vec<u8>,
    pub values: Vec<i32>,
}

impl Draft {
    /// A record of `count` values in which nothing but its layout can be wrong.
    pub fn draw(random: &mut Random, layout: u32, count: usize) -> Self {
        let any = random.between(1, 300);
        let edge = random.pick(&HEADER_COUNTS);
        let logged = random.pick(&[any, edge, count]);
        Draft::under(random, layout, logged.max(count.min(1)), count)
    }

    /// The same with a given header count, which must not be 0 if there are
    /// values.
    pub fn under(random: &mut Random, layout: u32, logged: usize, count: usize) -> Self {
        let ordinals = logged.min(256);
        let mut draft = Draft {
            layout,
            logged,
            fields: draw_fields(random, layout),
            ordinals: (0..count).map(|_| random.below(ordinals) as u8).collect(),
            values: (0..count).map(|_| draw_number(random)).collect(),
        };
        if count > 0 && random.one_in(2) {
            draft.ordinals[random.below(count)] = (ordinals - 1) as u8;
        }
        draft
    }

    pub fn count(&self) -> usize {
        self.ordinals.len()
    }

    /// The bytes of the record, whether it is sound or not.
    pub fn bytes(&self) -> Vec<u8> {
        bytes_of(self.layout, &self.fields, &self.ordinals, &self.values)
    }

    /// What reading the record must give.
    pub fn record(&self) -> Record {
        Record {
            number: 0,
            length: self.bytes().len(),
            count: self.count(),
            fields: kept(self.layout, &self.fields),
        }
    }

    /// Makes the record one that is refused with this number, 41 to 45, if it
    /// has the field that the number is about.
    pub fn breach(&mut self, random: &mut Random, number: u32) -> bool {
        let is_marked = |field: usize| width(self.layout, field) > 0;
        let fields = &mut self.fields;
        match number {
            41 => fields.time = random.pick(&TIMES[3..]),
            42 if is_marked(NORTH) => fields.north = random.pick(&NORTHS[5..]),
            43 if is_marked(EAST) => fields.east = random.pick(&EASTS[5..]),
            44 if is_marked(STATUS) => {
                fields.status = random.pick(&[9, 10, 13, 16, 17, 128, 254, 255]);
            }
            45 if self.logged < 256 && !self.ordinals.is_empty() => {
                let place = random.below(self.ordinals.len());
                let over = random.between(self.logged, 255);
                self.ordinals[place] = random.pick(&[over, self.logged, 255]) as u8;
            }
            _ => return false,
        }
        true
    }
}

/// Any layout, mostly one that is not refused.
pub fn draw_layout(random: &mut Random) -> u32 {
    let any = random.draw() as u32;
    match random.below(24) {
        0 => random.pick(&REFUSED_LAYOUTS),
        1 => any % 0x1_0000,
        2 => (any % LAYOUTS) | 1 << random.between(9, 31),
        _ => any % LAYOUTS,
    }
}

/// How many values a record has, mostly few.
pub fn draw_count(random: &mut Random) -> usize {
    match random.below(8) {
        0 => 0,
        1 => random.between(0, 255),
        2 => random.pick(&[15, 16, 17, 31, 32, 33, 254, 255]),
        _ => random.between(1, 12),
    }
}

/// The bytes of a record by its layout's lower bits.
pub fn bytes_of(layout: u32, fields: &LogFields, ordinals: &[u8], values: &[i32]) -> Vec<u8> {
    let parts: [&[u8]; WIDTHS.len()] = [
        &fields.north.to_le_bytes(),
        &fields.east.to_le_bytes(),
        &fields.up.to_le_bytes(),
        &[fields.status],
        &fields.pdop.to_le_bytes(),
        &fields.hdop.to_le_bytes(),
        &[fields.satellites],
        &fields.gps_time.to_le_bytes(),
        &fields.gps_date.to_le_bytes(),
    ];
    let mut bytes = fields.time.to_le_bytes().to_vec();
    bytes.extend(fields.days.to_le_bytes());
    for (field, part) in parts.into_iter().enumerate() {
        bytes.extend(&part[..width(layout, field)]);
    }
    bytes.push(ordinals.len() as u8);
    for (ordinal, value) in ordinals.iter().zip(values) {
        bytes.push(*ordinal);
        bytes.extend(value.to_le_bytes());
    }
    bytes
}

/// The fields, with 0 for those that are not marked.
pub fn kept(layout: u32, fields: &LogFields) -> Fields {
    let mut kept = Fields::of(fields);
    let clear: [fn(&mut Fields); WIDTHS.len()] = [
        |it| it.north = 0,
        |it| it.east = 0,
        |it| it.up = 0,
        |it| it.status = 0,
        |it| it.pdop = 0,
        |it| it.hdop = 0,
        |it| it.satellites = 0,
        |it| it.gps_time = 0,
        |it| it.gps_date = 0,
    ];
    for (field, clear) in clear.into_iter().enumerate() {
        if width(layout, field) == 0 {
            clear(&mut kept);
        }
    }
    kept
}

/// Fields within their limits; those that are not marked have any value.
fn draw_fields(random: &mut Random, layout: u32) -> LogFields {
    let mut fields = LogFields {
        time: random.below(GREATEST_TIME as usize + 1) as u32,
        days: random.draw() as u16,
        north: draw_number(random),
        east: draw_number(random),
        up: draw_number(random),
        status: random.byte(),
        pdop: random.draw() as u16,
        hdop: random.draw() as u16,
        satellites: random.byte(),
        gps_time: random.draw() as u32,
        gps_date: random.draw() as u16,
    };
    if random.one_in(4) {
        fields.time = random.pick(&TIMES[..3]);
    }
    if width(layout, NORTH) > 0 {
        fields.north = draw_within(random, &NORTHS);
    }
    if width(layout, EAST) > 0 {
        fields.east = draw_within(random, &EASTS);
    }
    if width(layout, STATUS) > 0 {
        fields.status = random.pick(&STATUSES);
    }
    fields
}

fn draw_number(random: &mut Random) -> i32 {
    let any = random.draw() as i32;
    let edge = random.pick(&NUMBERS);
    random.pick(&[any, any, edge])
}

/// A number within the limit that these places are around, sometimes at it.
fn draw_within(random: &mut Random, places: &[i32; 9]) -> i32 {
    let greatest = places[1] as usize;
    let any = random.between(0, 2 * greatest) as i64 - greatest as i64;
    let edge = random.pick(&places[..5]);
    random.pick(&[any as i32, any as i32, edge])
}

/// Five numbers within a limit in both directions, and four beyond it.
const fn around(greatest: i32) -> [i32; 9] {
    [
        0,
        greatest,
        greatest - 1,
        1 - greatest,
        -greatest,
        greatest + 1,
        -greatest - 1,
        i32::MIN,
        i32::MAX,
    ]
}

#[cfg(test)]
mod tests {
    use super::super::rules::{Causes, LOG, READING, WRITING};
    use super::*;

    const COUNTS: [usize; 3] = [0, 1, 255];

    fn causes(draft: &Draft) -> Causes {
        let lists = [draft.count(); 2];
        Causes::of_reading(&draft.bytes(), draft.layout, draft.logged, lists)
    }

    #[test]
    fn nothing_speaks_against_a_drawn_record() {
        let random = &mut Random::new(11783);
        for layout in 0..LAYOUTS {
            for count in COUNTS {
                let draft = Draft::draw(random, layout, count);
                let bytes = draft.bytes();
                assert_eq!(causes(&draft), Causes::default());
                let log = Causes::of_log(&bytes, layout, draft.logged);
                assert_eq!((log.1.number, log.1.count), (0, 1));
                let lists = (&draft.ordinals[..], &draft.values[..]);
                let room = bytes.len();
                let causes =
                    Causes::of_writing(layout, &draft.fields, draft.logged, lists, count, room);
                assert_eq!(causes, Causes::default());
            }
        }
    }

    #[test]
    fn a_breach_is_the_only_cause() {
        let random = &mut Random::new(11783);
        for layout in 0..LAYOUTS {
            for count in COUNTS {
                for number in 41..=45 {
                    let mut draft = Draft::draw(random, layout, count);
                    let due = if draft.breach(random, number) {
                        number
                    } else {
                        0
                    };
                    let causes = causes(&draft);
                    for order in [READING, LOG, WRITING] {
                        assert_eq!(causes.first(order), due, "{draft:?}");
                    }
                    let mut others = (40..=48).filter(|&it| it != number);
                    assert!(!others.any(|it| causes.hold(it)));
                }
            }
        }
    }

    #[test]
    fn bytes_are_those_of_the_marked_fields() {
        let fields = LogFields {
            time: 0x0403_0201,
            days: 0x0605,
            north: 0x0A09_0807,
            status: 0x0B,
            gps_date: 0x0D0C,
            ..LogFields::default()
        };
        let layout = 1 << NORTH | 1 << STATUS | 1 << 8;
        let bytes = bytes_of(layout, &fields, &[0x0F, 0x14], &[0x1312_1110, -2]);
        let expected: Vec<u8> = (1..=13).chain([2]).chain(0x0F..=0x14).collect();
        assert_eq!(bytes, [&expected[..], &[0xFE, 0xFF, 0xFF, 0xFF]].concat());
        assert_eq!(kept(layout, &fields), Fields::of(&fields));
        let bare = Fields {
            time: fields.time,
            days: fields.days,
            ..Fields::default()
        };
        assert_eq!(kept(0, &fields), bare);
    }
}
