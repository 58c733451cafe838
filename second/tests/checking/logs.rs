//! Records of time logs: the test vector, every layout and every limit.

use crate::literal_logs::{encode, WIDTHS};
use crate::vectors::parse_hex;
use second::{
    optional_fields, read_log, read_record, write_record, LogFields, LogRecord, LogRefusal,
};

const VECTOR: &str = include_str!("../../../vectors/log-000-d49.hex");
/// North, east and status.
const VECTOR_LAYOUT: u32 = 0x00B;
pub const ALL: u32 = 0x1FF;
/// Counts of values around the numbers that may be looked at together.
pub const COUNTS: [usize; 14] = [0, 1, 2, 3, 7, 8, 15, 16, 17, 31, 32, 33, 254, 255];

/// Fields that show where each byte goes and which number has a sign.
pub const FIELDS: LogFields = LogFields {
    time: 0x0403_0201,
    days: 0x8605,
    north: -0x0708_090A,
    east: 0x0B0C_0D0E,
    up: -0x7F10_1112,
    status: 14,
    pdop: 0x9314,
    hdop: 0xA516,
    satellites: 0xF7,
    gps_time: 0xF819_1A1B,
    gps_date: 0xFC1D,
};
/// Fields that are all beyond their limits, if they have one.
pub const BAD_FIELDS: LogFields = LogFields {
    time: 86_400_000,
    north: 900_000_001,
    east: -1_800_000_001,
    status: 9,
    ..FIELDS
};

/// The lists that are lent to a reading.
pub struct Lent {
    pub ordinals: Vec<u8>,
    pub values: Vec<i32>,
}

impl Lent {
    pub fn new(ordinals: usize, values: usize) -> Self {
        Lent {
            ordinals: vec![0xA5; ordinals],
            values: vec![-77; values],
        }
    }

    pub fn read(&mut self, bytes: &[u8], layout: u32, logged: usize) -> Result<LogRecord, u8> {
        let Lent { ordinals, values } = self;
        read_record(bytes, layout, logged, ordinals, values)
    }

    pub fn is_untouched(&self) -> bool {
        let Lent { ordinals, values } = self;
        ordinals.iter().all(|&it| it == 0xA5) && values.iter().all(|&it| it == -77)
    }

    /// Whether the entries are at the start and the rest is as it was.
    pub fn holds(&self, entries: &[(u8, i32)]) -> bool {
        let (ordinals, more) = self.ordinals.split_at(entries.len());
        let (values, others) = self.values.split_at(entries.len());
        let there = ordinals.iter().copied().zip(values.iter().copied());
        there.eq(entries.iter().copied())
            && more.iter().all(|&it| it == 0xA5)
            && others.iter().all(|&it| it == -77)
    }
}

/// Asserts that reading refuses and changes nothing.
fn assert_refused(bytes: &[u8], layout: u32, logged: usize, number: u8) {
    let mut lent = Lent::new(255, 255);
    assert_eq!(lent.read(bytes, layout, logged), Err(number));
    assert!(lent.is_untouched());
}

/// Writes entries with a buffer of that size, and gives the buffer too.
pub fn written(
    room: usize,
    layout: u32,
    fields: &LogFields,
    logged: usize,
    entries: &[(u8, i32)],
) -> (Result<usize, u8>, Vec<u8>) {
    let (ordinals, values): (Vec<u8>, Vec<i32>) = entries.iter().copied().unzip();
    let mut to = vec![0xA5; room];
    let count = entries.len();
    let result = write_record(&mut to, layout, fields, logged, &ordinals, &values, count);
    (result, to)
}

pub fn entries(count: usize) -> Vec<(u8, i32)> {
    let value = |index: usize| (index as i32).wrapping_mul(-0x1234_5677) ^ i32::MIN;
    (0..count)
        .map(|index| ((index * 101 % 251) as u8, value(index)))
        .collect()
}

/// The fields as they are read back.
fn without_unmarked(layout: u32, fields: &LogFields) -> LogFields {
    let marked = |mark: u32| i64::from(layout >> mark & 1);
    LogFields {
        time: fields.time,
        days: fields.days,
        north: fields.north * marked(0) as i32,
        east: fields.east * marked(1) as i32,
        up: fields.up * marked(2) as i32,
        status: fields.status * marked(3) as u8,
        pdop: fields.pdop * marked(4) as u16,
        hdop: fields.hdop * marked(5) as u16,
        satellites: fields.satellites * marked(6) as u8,
        gps_time: fields.gps_time * marked(7) as u32,
        gps_date: fields.gps_date * marked(8) as u16,
    }
}

pub fn head_bytes(layout: u32) -> usize {
    let marked = (0..9).filter(|mark| layout >> mark & 1 == 1);
    7 + marked.map(|mark| WIDTHS[mark]).sum::<usize>()
}

#[test]
fn the_vector_is_read_and_written() {
    let bytes = parse_hex(VECTOR);
    let fields = LogFields {
        time: 59_520_000,
        days: 9_253,
        north: 510_067_800,
        east: 60_348_900,
        status: 1,
        ..LogFields::default()
    };
    let pairs = [(0, 10), (1, 15)];
    let mut lent = Lent::new(4, 3);
    let (length, count) = (26, 2);
    let expected = LogRecord {
        length,
        count,
        fields,
    };
    assert_eq!(lent.read(&bytes, VECTOR_LAYOUT, 2), Ok(expected));
    assert!(lent.holds(&pairs));
    assert_eq!(read_log(&bytes, VECTOR_LAYOUT, 2), Ok(1));
    let (result, to) = written(30, VECTOR_LAYOUT, &fields, 2, &pairs);
    assert_eq!(result, Ok(26));
    assert_eq!(to[..26], bytes);
    assert_eq!(to[26..], [0xA5; 4]);
    assert_eq!(optional_fields(VECTOR_LAYOUT), Ok(3));
    assert_refused(&bytes, VECTOR_LAYOUT, 1, 45);
}

#[test]
fn marks_are_counted_or_the_layout_refused() {
    for layout in (0..=0xFFFF).chain([0x1_0000, 0x1_0001, 0x1_01FF, 0x8000_0000, u32::MAX]) {
        let count = format!("{layout:b}").matches('1').count() as u32;
        let expected = if layout < 512 { Ok(count) } else { Err(47) };
        assert_eq!(optional_fields(layout), expected);
        if layout >= 512 {
            let refusal = LogRefusal {
                number: 47,
                start: 0,
            };
            assert_refused(&[], layout, 0, 47);
            assert_eq!(read_log(&[], layout, 0), Err(refusal));
            assert_eq!(read_log(&[0; 40], layout, 0), Err(refusal));
            assert_eq!(written(0, layout, &FIELDS, 0, &[]), (Err(47), vec![]));
        }
    }
}

#[test]
fn every_byte_has_its_place() {
    let (result, to) = written(37, ALL, &FIELDS, 8, &[(7, -2)]);
    let expected = [
        [0x01, 0x02, 0x03, 0x04, 0x05, 0x86].as_slice(),
        &[0xF6, 0xF6, 0xF7, 0xF8, 0x0E, 0x0D, 0x0C, 0x0B],
        &[0xEE, 0xEE, 0xEF, 0x80, 14, 0x14, 0x93, 0x16, 0xA5, 0xF7],
        &[0x1B, 0x1A, 0x19, 0xF8, 0x1D, 0xFC, 1],
        &[7, 0xFE, 0xFF, 0xFF, 0xFF, 0xA5],
    ];
    assert_eq!(result, Ok(36));
    assert_eq!(to, expected.concat());
}

/// What is written is what is read, whatever comes after it.
#[test]
fn round_trips_over_every_layout() {
    for layout in 0..512 {
        for count in COUNTS {
            let entries = entries(count);
            let length = head_bytes(layout) + 5 * count;
            let (result, to) = written(length + 90, layout, &FIELDS, 251, &entries);
            assert_eq!(result, Ok(length));
            assert_eq!(to[..length], encode(layout, &FIELDS, &entries));
            assert!(to[length..].iter().all(|&it| it == 0xA5));
            let fields = without_unmarked(layout, &FIELDS);
            let expected = LogRecord {
                length,
                count,
                fields,
            };
            let largest = entries.iter().map(|entry| usize::from(entry.0)).max();
            let logged = largest.map_or(0, |it| it + 1);
            for behind in [0, 1, 30, 90] {
                let mut lent = Lent::new(count + 3, count + 2);
                let bytes = &to[..length + behind];
                assert_eq!(lent.read(bytes, layout, logged), Ok(expected));
                assert!(lent.holds(&entries));
            }
        }
    }
}

#[test]
fn every_cut_is_40_whatever_else_is_wrong() {
    for layout in (0..512).step_by(7).chain([ALL]) {
        for count in COUNTS {
            for fields in [FIELDS, BAD_FIELDS] {
                let bytes = encode(layout, &fields, &entries(count));
                for cut in 0..bytes.len() {
                    let mut lent = Lent::new(0, 0);
                    assert_eq!(lent.read(&bytes[..cut], layout, 0), Err(40));
                }
                assert_refused(&bytes[..bytes.len() - 1], layout, 251, 40);
            }
        }
    }
}

/// Asserts what reading, writing and a log make of fields with all marks, and
/// that without marks only the time counts.
fn assert_judged(fields: LogFields, number: u8) {
    let bytes = encode(ALL, &fields, &[]);
    let start = bytes.len();
    let mut log = encode(ALL, &FIELDS, &[]);
    log.extend(&bytes);
    let (result, to) = written(start, ALL, &fields, 0, &[]);
    if number == 0 {
        let expected = LogRecord {
            length: bytes.len(),
            count: 0,
            fields,
        };
        assert_eq!(Lent::new(0, 0).read(&bytes, ALL, 0), Ok(expected));
        assert_eq!(read_log(&log, ALL, 0), Ok(2));
        assert_eq!((result, to), (Ok(start), bytes));
    } else {
        assert_refused(&bytes, ALL, 0, number);
        assert_eq!(read_log(&log, ALL, 0), Err(LogRefusal { number, start }));
        assert_eq!((result, to), (Err(number), vec![0xA5; start]));
    }
    let time_alone = if number == 41 { Err(41) } else { Ok(7) };
    assert_eq!(written(7, 0, &fields, 0, &[]).0, time_alone);
}

#[test]
fn every_limit_is_exact() {
    for (time, number) in [(0, 0), (86_399_999, 0), (86_400_000, 41), (u32::MAX, 41)] {
        assert_judged(LogFields { time, ..FIELDS }, number);
    }
    for limit in [900_000_000, 1_800_000_000] {
        let within = [0, -1, -limit, limit].map(|it| (it, false));
        let beyond = [-limit - 1, limit + 1, i32::MIN, i32::MAX].map(|it| (it, true));
        for (angle, refused) in within.into_iter().chain(beyond) {
            let (fields, number) = match limit {
                900_000_000 => (
                    LogFields {
                        north: angle,
                        ..FIELDS
                    },
                    42,
                ),
                _ => (
                    LogFields {
                        east: angle,
                        ..FIELDS
                    },
                    43,
                ),
            };
            assert_judged(fields, if refused { number } else { 0 });
        }
    }
    for status in 0..=255 {
        let known = status <= 8 || status == 14 || status == 15;
        assert_judged(LogFields { status, ..FIELDS }, if known { 0 } else { 44 });
    }
}

/// One ordinal decides, wherever it is; bytes after the record do not matter.
#[test]
fn ordinals_are_below_the_count_of_log_values() {
    for count in COUNTS.into_iter().filter(|&count| count > 0) {
        for (at, logged) in (0..count).flat_map(|at| [1, 2, 128, 255].map(|it| (at, it))) {
            for (ordinal, number) in [(logged - 1, 0), (logged, 45), (255, 45)] {
                let mut entries = vec![(0, -1); count];
                entries[at].0 = ordinal as u8;
                let mut bytes = encode(VECTOR_LAYOUT, &FIELDS, &entries);
                let length = bytes.len();
                let wrote = written(length, VECTOR_LAYOUT, &FIELDS, logged, &entries);
                assert_eq!(wrote.0, if number == 0 { Ok(length) } else { Err(45) });
                bytes.extend([0xFF; 85]);
                for bytes in [&bytes[..length], &bytes] {
                    let mut lent = Lent::new(count, count);
                    let read = lent.read(bytes, VECTOR_LAYOUT, logged);
                    assert_eq!(read.err().unwrap_or(0), number);
                    assert!(number == 0 || lent.is_untouched());
                }
                let whole = read_log(&bytes[..length], VECTOR_LAYOUT, logged);
                let (start, one) = (0, 1);
                let expected = LogRefusal { number, start };
                assert_eq!(whole, if number == 0 { Ok(one) } else { Err(expected) });
            }
        }
    }
    // With 0 only a record without values passes, with 256 and more any does.
    let highest = encode(0, &FIELDS, &[(255, 0)]);
    assert_refused(&encode(0, &FIELDS, &[(0, 0)]), 0, 0, 45);
    assert_eq!(read_log(&encode(0, &FIELDS, &[]), 0, 0), Ok(1));
    for logged in [256, 257, 511, 512, usize::MAX] {
        assert_eq!(read_log(&highest, 0, logged), Ok(1));
        assert_eq!(
            written(12, 0, &FIELDS, logged, &[(255, 0)]),
            (Ok(12), highest.clone())
        );
    }
}
