//! Refusals of time logs: which of several is given, how much room is needed,
//! and where in a log they are. Lent memory stays as it was.

use crate::literal_logs::encode;
use crate::logs::{entries, head_bytes, written, Lent, ALL, BAD_FIELDS, COUNTS, FIELDS};
use second::{read_log, write_record, LogFields, LogRefusal};

/// The refusals of each call, in the order of precedence.
const READING: [u8; 8] = [47, 40, 41, 42, 43, 44, 45, 46];
const WRITING: [u8; 8] = [47, 48, 41, 42, 43, 44, 45, 46];

/// Every subset of the refusals, with the one that is expected; 0 for none.
fn choices(refusals: [u8; 8]) -> impl Iterator<Item = (Vec<u8>, u8)> {
    (0..256).map(move |choice| {
        let chosen = (0..8).filter(|bit| choice >> bit & 1 == 1);
        let chosen: Vec<u8> = chosen.map(|bit| refusals[bit]).collect();
        let first = *chosen.first().unwrap_or(&0);
        (chosen, first)
    })
}

/// Fields that cause the chosen ones of the refusals 41 to 44.
fn fields_for(chosen: &[u8]) -> LogFields {
    let mut fields = FIELDS;
    for number in chosen {
        match number {
            41 => fields.time = BAD_FIELDS.time,
            42 => fields.north = BAD_FIELDS.north,
            43 => fields.east = BAD_FIELDS.east,
            44 => fields.status = BAD_FIELDS.status,
            _ => {}
        }
    }
    fields
}

#[test]
fn refusals_to_read_come_in_order() {
    for (chosen, first) in choices(READING) {
        let calls_for = |number| chosen.contains(&number);
        let layout = if calls_for(47) { ALL + 1 } else { ALL };
        let logged = if calls_for(45) { 6 } else { 7 };
        for count in [1, 16, 20] {
            let mut record = entries(count);
            record.iter_mut().for_each(|entry| entry.0 = 6);
            let mut bytes = encode(ALL, &fields_for(&chosen), &record);
            let room = if calls_for(46) { count - 1 } else { count };
            if calls_for(40) {
                bytes.pop();
            } else if count == 16 {
                bytes.extend([0xFF; 80]);
            }
            for (ordinals, values) in [(room, room), (room, 255), (255, room)] {
                let mut lent = Lent::new(ordinals, values);
                let number = lent.read(&bytes, layout, logged).err().unwrap_or(0);
                assert_eq!(number, first, "{chosen:?}");
                assert!(first == 0 || lent.is_untouched());
            }
        }
    }
}

#[test]
fn refusals_to_write_come_in_order() {
    for (chosen, first) in choices(WRITING) {
        let calls_for = |number| chosen.contains(&number);
        let layout = if calls_for(47) { ALL + 1 } else { ALL };
        let logged = if calls_for(45) { 6 } else { 7 };
        let fields = fields_for(&chosen);
        for (count, shorter) in [(1, 0), (20, 19), (256, 256)] {
            let fits = if calls_for(48) { shorter } else { count };
            // The last count is refused although both lists are long enough.
            let count = if calls_for(48) { count } else { count.min(255) };
            for (ordinals, values) in [(fits, fits), (fits, 300), (300, fits)] {
                let (ordinals, values) = (vec![6; ordinals], vec![-1; values]);
                let room = head_bytes(ALL) + 5 * count - usize::from(calls_for(46));
                let mut to = vec![0xA5; room];
                let result =
                    write_record(&mut to, layout, &fields, logged, &ordinals, &values, count);
                let expected = if first == 0 { Ok(room) } else { Err(first) };
                assert_eq!(result, expected, "{chosen:?}");
                assert!(first == 0 || to == vec![0xA5; room]);
            }
        }
    }
}

#[test]
fn unmarked_fields_are_not_judged() {
    let fields = LogFields {
        time: 0,
        ..BAD_FIELDS
    };
    for layout in 0..512 {
        let marked = |mark: u32| layout >> mark & 1 == 1;
        let length = head_bytes(layout);
        let expected = match (marked(0), marked(1), marked(3)) {
            (true, _, _) => Err(42),
            (_, true, _) => Err(43),
            (_, _, true) => Err(44),
            _ => Ok(length),
        };
        assert_eq!(written(40, layout, &fields, 0, &[]).0, expected);
        let bytes = encode(layout, &fields, &[]);
        let read = Lent::new(0, 0).read(&bytes, layout, 0);
        assert_eq!(read.map(|record| record.length), expected);
    }
}

#[test]
fn lists_take_the_values_or_nothing() {
    for count in COUNTS {
        let entries = entries(count);
        let bytes = encode(ALL, &FIELDS, &entries);
        for ordinals in count.saturating_sub(2)..count + 3 {
            for values in count.saturating_sub(2)..count + 3 {
                let mut lent = Lent::new(ordinals, values);
                let read = lent.read(&bytes, ALL, 251);
                if ordinals < count || values < count {
                    assert_eq!(read, Err(46));
                    assert!(lent.is_untouched());
                } else {
                    assert_eq!(read.map(|record| record.count), Ok(count));
                    assert!(lent.holds(&entries));
                }
            }
        }
    }
}

#[test]
fn a_buffer_takes_the_record_or_nothing() {
    for count in COUNTS {
        let entries = entries(count);
        let bytes = encode(ALL, &FIELDS, &entries);
        for room in 0..bytes.len() + 20 {
            let (result, to) = written(room, ALL, &FIELDS, 251, &entries);
            let mut expected = vec![0xA5; room];
            if room < bytes.len() {
                assert_eq!(result, Err(46));
            } else {
                assert_eq!(result, Ok(bytes.len()));
                expected[..bytes.len()].copy_from_slice(&bytes);
            }
            assert_eq!(to, expected);
        }
    }
}

#[test]
fn only_the_first_values_are_written() {
    let write = |ordinals: &[u8], values: &[i32], count| {
        let mut to = [0xA5; 1_300];
        let result = write_record(&mut to, 0, &FIELDS, 9, ordinals, values, count);
        (result, to)
    };
    let ordinals: Vec<u8> = (0..=255)
        .map(|it| if it < 40 { it % 9 } else { it })
        .collect();
    let values: Vec<i32> = (-300..0).collect();
    for count in 0..=40 {
        let entries: Vec<_> = ordinals
            .iter()
            .copied()
            .zip(values.iter().copied())
            .collect();
        let (result, to) = write(&ordinals, &values, count);
        let length = 7 + 5 * count;
        assert_eq!(result, Ok(length));
        assert_eq!(to[..length], encode(0, &FIELDS, &entries[..count]));
        assert!(to[length..].iter().all(|&it| it == 0xA5));
    }
    let untouched = [0xA5; 1_300];
    assert_eq!(write(&ordinals, &values, 41), (Err(45), untouched));
    assert_eq!(write(&ordinals, &values, 255), (Err(45), untouched));
    for count in [256, 257, 300, 301, 65_536, usize::MAX] {
        assert_eq!(write(&ordinals, &values, count), (Err(48), untouched));
        assert_eq!(write(&[0; 300], &[0; 300], count), (Err(48), untouched));
    }
    assert_eq!(write(&[0; 300], &values, 255).0, Ok(1_282));
}

/// Records of all sizes, and where each starts.
fn log_of_all_counts(layout: u32) -> (Vec<u8>, Vec<usize>) {
    let mut log = Vec::new();
    let mut starts = Vec::new();
    for count in COUNTS.into_iter().chain([5, 0, 0, 40]) {
        starts.push(log.len());
        log.extend(encode(layout, &FIELDS, &entries(count)));
    }
    (log, starts)
}

#[test]
fn a_log_is_whole_records_or_torn_in_one() {
    for layout in [0, 0x008, 0x00B, 0x0A4, ALL] {
        let (log, starts) = log_of_all_counts(layout);
        assert_eq!(read_log(&log, layout, 251), Ok(starts.len()));
        for cut in 0..log.len() {
            let before = starts.iter().filter(|&&start| start <= cut).count() - 1;
            let start = starts[before];
            let number = 40;
            let torn = if start == cut {
                Ok(before)
            } else {
                Err(LogRefusal { number, start })
            };
            assert_eq!(read_log(&log[..cut], layout, 251), torn);
        }
    }
}

#[test]
fn the_first_record_that_does_not_decode_is_named() {
    let (log, starts) = log_of_all_counts(ALL);
    let torn = &log[..log.len() - 1];
    // Places in a record and what makes them bad.
    for (place, bytes, number) in [
        (0, [0xFF; 4].as_slice(), 41),
        (6, &[0xFF, 0xFF, 0xFF, 0x7F], 42),
        (10, &[0x00, 0x00, 0x00, 0x80], 43),
        (18, &[13], 44),
        (31, &[251], 45),
    ] {
        // Without values a record has no ordinal to make bad.
        let has_place = |start: usize| place < 31 || log[start + 30] > 0;
        for &start in starts.iter().filter(|&&start| has_place(start)) {
            let mut bad = torn.to_vec();
            // From here on each record is bad, and the last one torn too.
            for &start in starts.iter().filter(|&&it| it >= start && has_place(it)) {
                bad[start + place..][..bytes.len()].copy_from_slice(bytes);
            }
            let number = if start == starts[starts.len() - 1] {
                40
            } else {
                number
            };
            assert_eq!(read_log(&bad, ALL, 251), Err(LogRefusal { number, start }));
        }
    }
}

#[test]
fn an_empty_log_has_no_records() {
    for layout in 0..512 {
        for logged in [0, 2, usize::MAX] {
            assert_eq!(read_log(&[], layout, logged), Ok(0));
        }
    }
    let (number, start) = (47, 0);
    assert_eq!(read_log(&[], 512, 0), Err(LogRefusal { number, start }));
}
