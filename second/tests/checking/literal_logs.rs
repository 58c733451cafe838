//! Time logs byte by byte and value by value, without regard to speed; the fast
//! functions are compared with this.

use crate::cross_check::Random;
use second::{read_log, read_record, write_record, LogFields, LogRecord, LogRefusal};

const SEED: u64 = 86_400;
const INPUTS: u64 = 30_000;
/// Width of each optional field, by its mark.
pub const WIDTHS: [usize; 9] = [4, 4, 4, 1, 2, 2, 1, 4, 2];

/// A decoded record with the ordinals and values it has.
type Decoded = (LogRecord, Vec<(u8, i32)>);

/// Bytes that are taken one by one until there are none.
struct Tape<'a> {
    bytes: &'a [u8],
    taken: usize,
    ended: bool,
}

impl Tape<'_> {
    /// The next number without sign; 0 for bytes that are not there.
    fn number(&mut self, width: usize) -> u64 {
        let mut number = 0;
        let mut weight = 1;
        for _ in 0..width {
            match self.bytes.get(self.taken) {
                Some(&byte) => number += weight * u64::from(byte),
                None => self.ended = true,
            }
            weight *= 256;
            self.taken += 1;
        }
        number
    }

    /// The next number of four bytes with a sign.
    fn signed(&mut self) -> i64 {
        let number = self.number(4) as i64;
        if number < 1 << 31 {
            number
        } else {
            number - (1 << 32)
        }
    }
}

fn marked(layout: u32, mark: u32) -> bool {
    layout / 2_u32.pow(mark) % 2 == 1
}

/// What has limits, in the order of the refusals 41 to 45.
fn judged(layout: u32, fields: &LogFields, ordinals: &[u8], logged: usize) -> Result<(), u8> {
    let north = i64::from(fields.north);
    let east = i64::from(fields.east);
    if fields.time >= 24 * 60 * 60 * 1_000 {
        return Err(41);
    }
    if marked(layout, 0) && north.abs() > 900_000_000 {
        return Err(42);
    }
    if marked(layout, 1) && east.abs() > 1_800_000_000 {
        return Err(43);
    }
    let statuses = [0, 1, 2, 3, 4, 5, 6, 7, 8, 14, 15];
    if marked(layout, 3) && !statuses.contains(&fields.status) {
        return Err(44);
    }
    for &ordinal in ordinals {
        if usize::from(ordinal) >= logged {
            return Err(45);
        }
    }
    Ok(())
}

/// The record at the start of the bytes, or 40 to 45 or 47.
pub fn decode(bytes: &[u8], layout: u32, logged: usize) -> Result<Decoded, u8> {
    if layout >= 512 {
        return Err(47);
    }
    let mut tape = Tape {
        bytes,
        taken: 0,
        ended: false,
    };
    let mut fields = LogFields {
        time: tape.number(4) as u32,
        days: tape.number(2) as u16,
        ..LogFields::default()
    };
    for mark in (0..9).filter(|&mark| marked(layout, mark)) {
        match mark {
            0 => fields.north = tape.signed() as i32,
            1 => fields.east = tape.signed() as i32,
            2 => fields.up = tape.signed() as i32,
            3 => fields.status = tape.number(1) as u8,
            4 => fields.pdop = tape.number(2) as u16,
            5 => fields.hdop = tape.number(2) as u16,
            6 => fields.satellites = tape.number(1) as u8,
            7 => fields.gps_time = tape.number(4) as u32,
            _ => fields.gps_date = tape.number(2) as u16,
        }
    }
    let count = tape.number(1) as usize;
    let mut entries = Vec::new();
    for _ in 0..count {
        entries.push((tape.number(1) as u8, tape.signed() as i32));
    }
    if tape.ended {
        return Err(40);
    }
    let ordinals: Vec<u8> = entries.iter().map(|entry| entry.0).collect();
    judged(layout, &fields, &ordinals, logged)?;
    let length = tape.taken;
    let record = LogRecord {
        length,
        count,
        fields,
    };
    Ok((record, entries))
}

/// The bytes of a record whose parts are not judged.
pub fn encode(layout: u32, fields: &LogFields, entries: &[(u8, i32)]) -> Vec<u8> {
    let numbers = [
        i64::from(fields.north),
        i64::from(fields.east),
        i64::from(fields.up),
        i64::from(fields.status),
        i64::from(fields.pdop),
        i64::from(fields.hdop),
        i64::from(fields.satellites),
        i64::from(fields.gps_time),
        i64::from(fields.gps_date),
    ];
    let mut bytes = Vec::new();
    let mut push = |number: i64, width: usize| {
        let digits = (0..width as u32).map(|place| number.div_euclid(256_i64.pow(place)));
        bytes.extend(digits.map(|digit| digit.rem_euclid(256) as u8));
    };
    push(i64::from(fields.time), 4);
    push(i64::from(fields.days), 2);
    for mark in (0..9).filter(|&mark| marked(layout, mark)) {
        push(numbers[mark as usize], WIDTHS[mark as usize]);
    }
    push(entries.len() as i64, 1);
    for &(ordinal, value) in entries {
        push(i64::from(ordinal), 1);
        push(i64::from(value), 4);
    }
    bytes
}

fn decode_log(mut bytes: &[u8], layout: u32, logged: usize) -> Result<usize, LogRefusal> {
    let whole = bytes.len();
    let mut records = 0;
    if let Err(47) = decode(&[], layout, logged) {
        let (number, start) = (47, 0);
        return Err(LogRefusal { number, start });
    }
    while !bytes.is_empty() {
        let start = whole - bytes.len();
        let (record, _) =
            decode(bytes, layout, logged).map_err(|number| LogRefusal { number, start })?;
        bytes = &bytes[record.length..];
        records += 1;
    }
    Ok(records)
}

/// Draws records that are mostly sound and often at a limit.
struct Maker {
    random: Random,
    layout: u32,
    logged: usize,
}

impl Maker {
    fn new(index: u64) -> Self {
        let state = SEED.wrapping_add(index << 32);
        let mut random = Random { state };
        let layout = random.below(512) as u32;
        let logged = random.pick(&[0, 1, 2, 7, 128, 254, 255, 256, usize::MAX]);
        Maker {
            random,
            layout,
            logged,
        }
    }

    fn angle(&mut self, limit: i32) -> i32 {
        let limits = [-limit, limit, 0, -1, 1];
        if self.random.one_in(20) {
            self.random
                .pick(&[-limit - 1, limit + 1, i32::MIN, i32::MAX])
        } else {
            self.random.pick(&limits)
        }
    }

    fn fields(&mut self) -> LogFields {
        let random = &mut self.random;
        let late = random.one_in(20);
        LogFields {
            time: random.pick(if late {
                &[86_400_000, u32::MAX]
            } else {
                &[0, 59_520_000, 86_399_999]
            }),
            days: random.draw() as u16,
            up: random.draw() as i32,
            status: if random.one_in(20) {
                random.draw() as u8
            } else {
                random.pick(&[0, 1, 8, 14, 15])
            },
            pdop: random.draw() as u16,
            hdop: random.draw() as u16,
            satellites: random.draw() as u8,
            gps_time: random.draw() as u32,
            gps_date: random.draw() as u16,
            north: self.angle(900_000_000),
            east: self.angle(1_800_000_000),
        }
    }

    fn entries(&mut self) -> Vec<(u8, i32)> {
        let most = self.random.pick(&[1, 4, 18, 40, 256]);
        let count = self.random.below(most);
        let allowed = self.logged.clamp(1, 256);
        let mut entries: Vec<(u8, i32)> = (0..count)
            .map(|_| {
                let ordinal = self.random.below(allowed) as u8;
                (ordinal, self.random.draw() as i32)
            })
            .collect();
        if count > 0 && self.random.one_in(10) {
            entries[self.random.below(count)].0 = self.random.draw() as u8;
        }
        entries
    }

    fn record(&mut self) -> Vec<u8> {
        let (fields, entries) = (self.fields(), self.entries());
        encode(self.layout, &fields, &entries)
    }

    /// Now and then bytes are changed, cut off or added.
    fn damage(&mut self, bytes: &mut Vec<u8>) {
        if self.random.one_in(8) && !bytes.is_empty() {
            let at = self.random.below(bytes.len());
            bytes[at] = self.random.draw() as u8;
        }
        if self.random.one_in(8) {
            bytes.truncate(self.random.below(bytes.len() + 1));
        }
        if self.random.one_in(3) {
            let added = self.random.below(120);
            bytes.extend((0..added).map(|_| self.random.draw() as u8));
        }
        if self.random.one_in(40) {
            self.layout = any_layout(&mut self.random);
        }
    }
}

/// Any layout; a third of them would be in range without their upper half.
fn any_layout(random: &mut Random) -> u32 {
    let any = random.draw() as u32;
    random.pick(&[any, any % 0x1_0000, 0x1_0000 | (any % 512)])
}

/// A refusal counts by its number, an answer as 0.
fn tally<T>(tallies: &mut [usize; 49], result: &Result<T, u8>) {
    tallies[usize::from(*result.as_ref().err().unwrap_or(&0))] += 1;
}

#[test]
fn random_records_are_read_alike() {
    let mut tallies = [0; 49];
    for index in 0..INPUTS {
        let mut maker = Maker::new(index);
        let mut bytes = maker.record();
        maker.damage(&mut bytes);
        let (layout, logged) = (maker.layout, maker.logged);
        let room = maker.random.pick(&[256, 256, 256, 17, 0]);
        let mut expected_ordinals = vec![0xA5; room];
        let mut expected_values = vec![-77; maker.random.pick(&[room, 256, 256])];
        let (mut ordinals, mut values) = (expected_ordinals.clone(), expected_values.clone());
        let expected = decode(&bytes, layout, logged).and_then(|(record, entries)| {
            if ordinals.len() < record.count || values.len() < record.count {
                return Err(46);
            }
            for (at, (ordinal, value)) in entries.into_iter().enumerate() {
                expected_ordinals[at] = ordinal;
                expected_values[at] = value;
            }
            Ok(record)
        });
        let read = read_record(&bytes, layout, logged, &mut ordinals, &mut values);
        assert_eq!(read, expected, "record {index}");
        assert_eq!(ordinals, expected_ordinals, "record {index}");
        assert_eq!(values, expected_values, "record {index}");
        tally(&mut tallies, &read);
    }
    // A refusal that is never given would not be tested.
    assert!(tallies[0] > 5_000 && tallies[40..48].iter().all(|&count| count > 100));
}

#[test]
fn random_records_are_written_alike() {
    let mut tallies = [0; 49];
    for index in 0..INPUTS {
        let mut maker = Maker::new(index);
        let (fields, entries) = (maker.fields(), maker.entries());
        let (ordinals, values): (Vec<u8>, Vec<i32>) = entries.iter().copied().unzip();
        let fewer = maker.random.below(entries.len() + 1);
        let count = maker.random.pick(&[entries.len(), fewer]) + usize::from(index % 16 == 0);
        if maker.random.one_in(40) {
            maker.layout = any_layout(&mut maker.random);
        }
        let (layout, logged) = (maker.layout, maker.logged);
        let room = maker.random.pick(&[20, 40, 1_400, 1_400, 1_400]);
        let mut expected_bytes = vec![0xA5; room];
        let mut bytes = expected_bytes.clone();
        let expected = if layout >= 512 {
            Err(47)
        } else if count > entries.len() {
            Err(48)
        } else {
            judged(layout, &fields, &ordinals[..count], logged).and_then(|()| {
                let record = encode(layout, &fields, &entries[..count]);
                let to = expected_bytes.get_mut(..record.len()).ok_or(46)?;
                to.copy_from_slice(&record);
                Ok(record.len())
            })
        };
        let written = write_record(
            &mut bytes, layout, &fields, logged, &ordinals, &values, count,
        );
        assert_eq!(written, expected, "record {index}");
        assert_eq!(bytes, expected_bytes, "record {index}");
        tally(&mut tallies, &written);
    }
    assert!(tallies[0] > 5_000 && tallies[41..].iter().all(|&count| count > 100));
}

#[test]
fn random_logs_are_read_alike() {
    let mut tallies = [0; 49];
    for index in 0..INPUTS {
        let mut maker = Maker::new(index);
        let records = maker.random.below(6);
        let mut log: Vec<u8> = (0..records).flat_map(|_| maker.record()).collect();
        maker.damage(&mut log);
        let (layout, logged) = (maker.layout, maker.logged);
        let read = read_log(&log, layout, logged);
        assert_eq!(read, decode_log(&log, layout, logged), "log {index}");
        tally(&mut tallies, &read.map_err(|refusal| refusal.number));
    }
    let refused = [40, 41, 42, 43, 44, 45, 47];
    assert!(tallies[0] > 5_000 && refused.iter().all(|&number| tallies[number] > 100));
    assert_eq!(tallies[46], 0);
}
