//! The rules of a log record, applied byte by byte: all causes for which a call
//! could be refused, even if an earlier cause hides them.

use super::library::Log;
use second::LogFields;

pub const GREATEST_TIME: u32 = 86_399_999;
pub const GREATEST_NORTH: i32 = 900_000_000;
pub const GREATEST_EAST: i32 = 1_800_000_000;
pub const STATUSES: [u8; 11] = [0, 1, 2, 3, 4, 5, 6, 7, 8, 14, 15];
/// The most values of a record.
pub const MOST_VALUES: usize = 255;
/// How many layouts there are: those with a bit above 8 are refused.
pub const LAYOUTS: u32 = 512;
/// Bytes of an ordinal with its value.
pub const PAIR_BYTES: usize = 5;

/// Bytes of the optional fields by their bits, and the bits of those that have
/// a limit.
pub const WIDTHS: [usize; 9] = [4, 4, 4, 1, 2, 2, 1, 4, 2];
pub const NORTH: usize = 0;
pub const EAST: usize = 1;
pub const STATUS: usize = 3;

/// The refusals of each call, in the order of precedence.
pub const READING: &[u32] = &[47, 40, 41, 42, 43, 44, 45, 46];
pub const WRITING: &[u32] = &[47, 48, 41, 42, 43, 44, 45, 46];
pub const LOG: &[u32] = &[47, 40, 41, 42, 43, 44, 45];

const LEAST_NUMBER: u32 = 40;

/// The refusals whose causes hold for one call.
#[derive(Clone, Copy, Debug, Default, PartialEq, Eq)]
pub struct Causes {
    /// One bit for each number from 40 on.
    bits: u16,
}

impl Causes {
    fn add(&mut self, number: u32, holds: bool) {
        self.bits |= u16::from(holds) << (number - LEAST_NUMBER);
    }

    pub fn hold(self, number: u32) -> bool {
        self.bits >> (number - LEAST_NUMBER) & 1 == 1
    }

    /// The number that a call with these refusals must give; 0 if none holds.
    pub fn first(self, order: &[u32]) -> u32 {
        let mut numbers = order.iter().filter(|&&number| self.hold(number));
        numbers.next().copied().unwrap_or(0)
    }

    /// For a record at the start of the bytes that is read into lists of these
    /// lengths. A cut record is judged by the bytes that are there, and one
    /// under a refused layout by the layout's lower bits.
    pub fn of_reading(bytes: &[u8], layout: u32, logged: usize, lists: [usize; 2]) -> Self {
        let count_at = place(layout, WIDTHS.len());
        let count = bytes.get(count_at).map(|&count| usize::from(count));
        let length = count.map(|count| count_at + 1 + PAIR_BYTES * count);
        let field = |field: usize| number(bytes, place(layout, field), width(layout, field));
        let signed = |it| field(it).map(|number| number as i32);
        let pairs = bytes.get(count_at + 1..).unwrap_or(&[]).chunks(PAIR_BYTES);
        let mut ordinals = pairs.take(count.unwrap_or(0)).map(|pair| pair[0]);
        let mut causes = Causes::default();
        causes.add(47, layout >= LAYOUTS);
        causes.add(40, length.is_none_or(|length| bytes.len() < length));
        causes.add(41, number(bytes, 0, 4).is_some_and(is_late));
        causes.add(42, signed(NORTH).is_some_and(is_too_far_north));
        causes.add(43, signed(EAST).is_some_and(is_too_far_east));
        causes.add(44, field(STATUS).is_some_and(|it| is_unknown(it as u8)));
        causes.add(45, ordinals.any(|it| usize::from(it) >= logged));
        causes.add(
            46,
            count.is_some_and(|count| count > lists[0].min(lists[1])),
        );
        causes
    }

    /// For a record of the first `count` ordinals and values that is written
    /// into `room` bytes.
    pub fn of_writing(
        layout: u32,
        fields: &LogFields,
        logged: usize,
        lists: (&[u8], &[i32]),
        count: usize,
        room: usize,
    ) -> Self {
        let (ordinals, values) = lists;
        let is_marked = |field| width(layout, field) > 0;
        let mut ordinals_used = ordinals.iter().take(count);
        let length =
            place(layout, WIDTHS.len()) + 1 + count.saturating_mul(PAIR_BYTES).min(1 << 60);
        let mut causes = Causes::default();
        causes.add(47, layout >= LAYOUTS);
        causes.add(
            48,
            count > MOST_VALUES.min(ordinals.len()).min(values.len()),
        );
        causes.add(41, is_late(fields.time));
        causes.add(42, is_marked(NORTH) && is_too_far_north(fields.north));
        causes.add(43, is_marked(EAST) && is_too_far_east(fields.east));
        causes.add(44, is_marked(STATUS) && is_unknown(fields.status));
        causes.add(45, ordinals_used.any(|&it| usize::from(it) >= logged));
        causes.add(46, room < length);
        causes
    }

    /// For the record at which reading a log stops, with the answer that must
    /// be given.
    pub fn of_log(bytes: &[u8], layout: u32, logged: usize) -> (Self, Log) {
        let mut log = Log::default();
        while layout >= LAYOUTS || log.start < bytes.len() {
            let rest = &bytes[log.start..];
            let causes = Causes::of_reading(rest, layout, logged, [MOST_VALUES; 2]);
            log.number = causes.first(LOG);
            if log.number != 0 {
                log.count = 0;
                return (causes, log);
            }
            let count_at = place(layout, WIDTHS.len());
            log.start += count_at + 1 + PAIR_BYTES * usize::from(rest[count_at]);
            log.count += 1;
        }
        log.start = 0;
        (Causes::default(), log)
    }
}

/// How many fields a layout marks, or the number of the refusal.
pub fn optional_fields(layout: u32) -> Result<u32, u8> {
    let marked = (0..WIDTHS.len()).filter(|&field| width(layout, field) > 0);
    if layout < LAYOUTS {
        Ok(marked.count() as u32)
    } else {
        Err(47)
    }
}

/// Where an optional field is, if it is marked. The count comes last.
pub fn place(layout: u32, field: usize) -> usize {
    let time_and_days = 4 + 2;
    time_and_days
        + (0..field)
            .map(|before| width(layout, before))
            .sum::<usize>()
}

/// Bytes of an optional field; 0 if it is not marked.
pub fn width(layout: u32, field: usize) -> usize {
    if layout >> field & 1 == 1 {
        WIDTHS[field]
    } else {
        0
    }
}

/// The number in `width` bytes, if there are that many and `width` is not 0.
fn number(bytes: &[u8], at: usize, width: usize) -> Option<u32> {
    let bytes = bytes.get(at..at + width).filter(|it| !it.is_empty())?;
    let digits = bytes.iter().rev();
    Some(digits.fold(0, |number, &byte| number << 8 | u32::from(byte)))
}

fn is_late(time: u32) -> bool {
    time > GREATEST_TIME
}

fn is_too_far_north(north: i32) -> bool {
    north.unsigned_abs() > GREATEST_NORTH as u32
}

fn is_too_far_east(east: i32) -> bool {
    east.unsigned_abs() > GREATEST_EAST as u32
}

fn is_unknown(status: u8) -> bool {
    !STATUSES.contains(&status)
}

#[cfg(test)]
mod tests {
    use super::*;

    const ALL: u32 = LAYOUTS - 1;
    /// North, east and status.
    const THREE: u32 = 0x00B;

    /// A record of one value under the layout of three fields.
    fn record() -> Vec<u8> {
        let mut record = vec![0; place(THREE, WIDTHS.len())];
        record.extend([1, 4, 0, 0, 0, 0]);
        record
    }

    fn held(causes: Causes) -> Vec<u32> {
        (40..=48).filter(|&number| causes.hold(number)).collect()
    }

    #[test]
    fn fields_stand_behind_those_that_are_marked() {
        let count = WIDTHS.len();
        assert_eq!([0, ALL, THREE].map(|it| place(it, count)), [6, 30, 15]);
        assert_eq!([0, ALL, THREE].map(|it| place(it, STATUS)), [6, 18, 14]);
        assert_eq!([0, ALL, THREE].map(|it| width(it, EAST)), [0, 4, 4]);
        assert_eq!(
            [LAYOUTS, LAYOUTS | THREE].map(|it| place(it, count)),
            [6, 15]
        );
    }

    #[test]
    fn marked_fields_are_counted() {
        let layouts = [0, 1, THREE, 0x100, ALL, LAYOUTS, 0xFFFF, 0x1_0001, u32::MAX];
        let counts = [Ok(0), Ok(1), Ok(3), Ok(1), Ok(9)].into_iter();
        let counts: Vec<Result<u32, u8>> = counts.chain([Err(47); 4]).collect();
        assert_eq!(layouts.map(optional_fields)[..], counts);
    }

    #[test]
    fn causes_are_all_seen() {
        let reading = |bytes: &[u8], layout, logged, lists| {
            held(Causes::of_reading(bytes, layout, logged, lists))
        };
        let mut record = record();
        assert_eq!(reading(&record, THREE, 5, [1; 2]), []);
        assert_eq!(reading(&record, THREE, 4, [1, 0]), [45, 46]);
        assert_eq!(reading(&record[..17], THREE, 4, [0, 1]), [40, 45, 46]);
        assert_eq!(reading(&record[..15], THREE, 4, [0, 0]), [40]);
        assert_eq!(reading(&[], 512, 0, [0, 0]), [40, 47]);
        record[..14].fill(0x7F);
        assert_eq!(reading(&record, THREE, 5, [1; 2]), [41, 42, 43]);
        record[9] = 0x80;
        record[10..15].fill(0x09);
        assert_eq!(reading(&record, THREE, 5, [1; 2]), [41, 42, 44]);
        assert_eq!(reading(&record[..9], THREE, 5, [1; 2]), [40, 41]);
        assert_eq!(reading(&record, THREE | 512, 5, [1; 2]), [41, 42, 44, 47]);
    }

    #[test]
    fn causes_of_writing_are_all_seen() {
        let fields = LogFields {
            time: GREATEST_TIME + 1,
            north: i32::MIN,
            east: -GREATEST_EAST - 1,
            status: 9,
            ..LogFields::default()
        };
        let writing = |layout, fields: &LogFields, logged, count, room| {
            let lists = (&[4, 5][..], &[0, 0, 0][..]);
            held(Causes::of_writing(
                layout, fields, logged, lists, count, room,
            ))
        };
        assert_eq!(writing(THREE, &LogFields::default(), 6, 2, 26), []);
        assert_eq!(writing(THREE, &LogFields::default(), 5, 1, 20), [46]);
        assert_eq!(writing(THREE, &fields, 5, 2, 26), [41, 42, 43, 44, 45]);
        assert_eq!(writing(0, &fields, 6, 3, 22), [41, 48]);
        let all = writing(512, &fields, 5, usize::MAX, 10_000);
        assert_eq!(all, [41, 45, 46, 47, 48]);
    }

    #[test]
    fn the_first_cause_decides() {
        let mut causes = Causes::default();
        assert_eq!(causes.first(READING), 0);
        for (number, first) in [(46, 46), (45, 45), (41, 41), (40, 40), (47, 47)] {
            causes.add(number, true);
            assert_eq!(causes.first(READING), first);
        }
        let mut causes = Causes::default();
        causes.add(48, true);
        causes.add(41, true);
        assert_eq!([WRITING, READING].map(|it| causes.first(it)), [48, 41]);
    }

    #[test]
    fn a_log_is_walked_to_its_end_or_to_a_refusal() {
        let log = |bytes: &[u8], layout, logged| {
            let (causes, log) = Causes::of_log(bytes, layout, logged);
            assert_eq!(causes.first(LOG), log.number);
            (log.number, log.count, log.start)
        };
        let two = [record(), record()].concat();
        assert_eq!(log(&[], THREE, 0), (0, 0, 0));
        assert_eq!(log(&[], 512, 0), (47, 0, 0));
        assert_eq!(log(&two, THREE, 5), (0, 2, 0));
        assert_eq!(log(&two, THREE, 4), (45, 0, 0));
        assert_eq!(log(&two[..41], THREE, 5), (40, 0, 21));
        assert_eq!(log(&two, THREE | 1 << 15, 5), (47, 0, 0));
    }
}
