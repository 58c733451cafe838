//! Division of a version 4 pool into its records.

/// Longest pool that is read, in bytes.
pub const MAX_POOL_BYTES: usize = 65_535;
/// Most records a pool may divide into.
pub const MAX_RECORDS: usize = 8_192;

/// An ID that names nothing, though a record may carry it. It also stands
/// where there is no ID to give: as the parent of a kind that has none, and in
/// faults of the whole pool.
pub(crate) const NO_REFERENCE: u16 = 65_535;

/// Limit of a designator, software version, serial number or unit text.
const MAX_TEXT: u8 = 128;
/// Limit of a device's extended structure label.
const MAX_EXTENDED_LABEL: u8 = 32;

/// The five kinds of record.
#[derive(Clone, Copy, Debug, Default, PartialEq, Eq)]
pub enum Kind {
    /// Device.
    #[default]
    Dvc,
    /// Device element.
    Det,
    /// Process data.
    Dpd,
    /// Property.
    Dpt,
    /// Value presentation.
    Dvp,
}

impl Kind {
    /// The three letters that start a record of this kind.
    pub fn mark(self) -> &'static str {
        match self {
            Kind::Dvc => "DVC",
            Kind::Det => "DET",
            Kind::Dpd => "DPD",
            Kind::Dpt => "DPT",
            Kind::Dvp => "DVP",
        }
    }
}

/// One entry of the working table. A pool has at most 65,535 bytes, so 16
/// bits hold every start and length.
#[derive(Clone, Copy, Debug, Default, PartialEq, Eq)]
pub struct Record {
    pub start: u16,
    pub length: u16,
    pub kind: Kind,
    pub id: u16,
    /// A device element's parent ID as it stands in the pool, whatever it
    /// names; 65535 for the other kinds, which have no parent.
    pub parent: u16,
}

/// Why a pool was not read. The place is a position in the pool, except for
/// `SHORT_TABLE`, where it is the count of records.
#[derive(Clone, Copy, Debug, PartialEq, Eq)]
pub struct Refusal {
    pub number: u8,
    pub place: usize,
}

impl Refusal {
    pub const EMPTY_POOL: u8 = 1;
    pub const LONG_POOL: u8 = 2;
    pub const NO_MARK: u8 = 3;
    pub const CUT_RECORD: u8 = 4;
    pub const LONG_TEXT: u8 = 5;
    pub const MANY_RECORDS: u8 = 6;
    pub const SHORT_TABLE: u8 = 7;

    fn new(number: u8, place: usize) -> Self {
        Refusal { number, place }
    }
}

/// Divides `pool` into records, enters them at the start of `table` and gives
/// their count. A refusal leaves the whole table as it was.
pub fn read_pool(pool: &[u8], table: &mut [Record]) -> Result<usize, Refusal> {
    // The table may only be written if the whole pool can be read, so a first
    // pass counts the records and a second one enters them.
    judge_length(pool)?;
    let mut count = 0;
    walk(pool, |_| count += 1)?;
    let mut free = entries_for(count, table)?.iter_mut();
    walk(pool, |record| {
        if let Some(entry) = free.next() {
            *entry = record;
        }
    })?;
    Ok(count)
}

/// As `read_pool`, but in one pass: the records are collected in `found`, which
/// is only scratch memory, until the pool is read in full.
pub(crate) fn read_pool_through<'a>(
    found: &mut Vec<Record>,
    pool: &[u8],
    table: &'a mut [Record],
) -> Result<&'a [Record], Refusal> {
    judge_length(pool)?;
    found.clear();
    walk(pool, |record| found.push(record))?;
    let entries = entries_for(found.len(), table)?;
    entries.copy_from_slice(found);
    Ok(entries)
}

fn judge_length(pool: &[u8]) -> Result<(), Refusal> {
    match pool.len() {
        0 => Err(Refusal::new(Refusal::EMPTY_POOL, 0)),
        1..=MAX_POOL_BYTES => Ok(()),
        _ => Err(Refusal::new(Refusal::LONG_POOL, 0)),
    }
}

/// The entries of the table for `count` records.
fn entries_for(count: usize, table: &mut [Record]) -> Result<&mut [Record], Refusal> {
    if count > MAX_RECORDS {
        return Err(Refusal::new(Refusal::MANY_RECORDS, 0));
    }
    table
        .get_mut(..count)
        .ok_or(Refusal::new(Refusal::SHORT_TABLE, count))
}

/// Visits the records from left to right, up to the first bad one. The pool
/// must not be longer than its limit.
#[inline]
fn walk(pool: &[u8], mut visit: impl FnMut(Record)) -> Result<(), Refusal> {
    let mut start = 0;
    while start < pool.len() {
        let (kind, parent, end) = kind_parent_and_end(pool, start)?;
        visit(Record {
            start: start as u16,
            length: (end - start) as u16,
            kind,
            id: u16::from_le_bytes([pool[start + 3], pool[start + 4]]),
            parent,
        });
        start = end;
    }
    Ok(())
}

/// Kind, parent ID and end of the record at `start`, or what is wrong with it.
/// Inlining it keeps the result in registers, which halves the time.
#[inline(always)]
fn kind_parent_and_end(pool: &[u8], start: usize) -> Result<(Kind, u16, usize), Refusal> {
    let fields = Fields { pool, start };
    let Some(mark) = pool.get(start..start + 3) else {
        return Err(fields.cut());
    };
    let without_parent = |kind, end| (kind, NO_REFERENCE, end);
    let (kind, parent, end) = match mark {
        b"DVC" => without_parent(Kind::Dvc, fields.dvc_end()?),
        b"DET" => {
            let (parent, end) = fields.det_parent_and_end()?;
            (Kind::Det, parent, end)
        }
        b"DPD" => without_parent(Kind::Dpd, fields.text_end(start + 9, MAX_TEXT)? + 2),
        b"DPT" => without_parent(Kind::Dpt, fields.text_end(start + 11, MAX_TEXT)? + 2),
        b"DVP" => without_parent(Kind::Dvp, fields.text_end(start + 14, MAX_TEXT)?),
        _ => return Err(Refusal::new(Refusal::NO_MARK, start)),
    };
    if end > pool.len() {
        return Err(fields.cut());
    }
    Ok((kind, parent, end))
}

/// Finds the ends of a record's fields, as positions in the pool. They follow
/// from the lengths and counts and may lie past the pool's end: a cut record is
/// noticed when the next length or count is fetched, at the latest at the
/// record's end.
#[derive(Clone, Copy)]
struct Fields<'a> {
    pool: &'a [u8],
    start: usize,
}

impl Fields<'_> {
    #[inline]
    fn dvc_end(self) -> Result<usize, Refusal> {
        let designator_end = self.text_end(self.start + 5, MAX_TEXT)?;
        let version_end = self.text_end(designator_end, MAX_TEXT)?;
        let name_end = version_end + 8;
        let serial_end = self.text_end(name_end, MAX_TEXT)?;
        let labels_end = serial_end + 7 + 7;
        self.text_end(labels_end, MAX_EXTENDED_LABEL)
    }

    /// The parent ID of a device element, and where its list ends.
    #[inline]
    fn det_parent_and_end(self) -> Result<(u16, usize), Refusal> {
        let number_end = self.text_end(self.start + 6, MAX_TEXT)? + 2;
        let count_end = number_end + 4;
        match self.pool.get(number_end..count_end) {
            Some(&[parent_low, parent_high, count_low, count_high]) => {
                let parent = u16::from_le_bytes([parent_low, parent_high]);
                let entries = u16::from_le_bytes([count_low, count_high]);
                Ok((parent, count_end + 2 * usize::from(entries)))
            }
            _ => Err(self.cut()),
        }
    }

    /// Where the text ends whose length byte is at `at`.
    #[inline]
    fn text_end(self, at: usize, limit: u8) -> Result<usize, Refusal> {
        match self.pool.get(at) {
            None => Err(self.cut()),
            Some(&length) if length > limit => Err(Refusal::new(Refusal::LONG_TEXT, at)),
            Some(&length) => Ok(at + 1 + usize::from(length)),
        }
    }

    fn cut(self) -> Refusal {
        Refusal::new(Refusal::CUT_RECORD, self.start)
    }
}

#[cfg(test)]
mod tests {
    use super::*;

    /// Pool P: a device and one device element.
    fn pool_p() -> Vec<u8> {
        let mut pool = b"DVC\0\0".to_vec();
        pool.extend([0; 2]); // designator, software version
        pool.extend([0; 8]); // NAME
        pool.push(0); // serial number
        pool.extend([1; 7]); // structure label
        pool.extend(*b"en\0\0\0\0\xFF"); // localization label
        pool.push(0); // extended structure label
        pool.extend(*b"DET\x01\0\x01\0\0\0\0\0\0\0");
        pool
    }

    /// Pool Q: P, a second device element and its process data.
    fn pool_q() -> Vec<u8> {
        let mut pool = pool_p();
        pool.extend(*b"DET\x02\0\x04\0\x01\0\x01\0\x01\0\x03\0");
        pool.extend(*b"DPD\x03\0\x8D\0\x01\x09\0\xFF\xFF");
        pool
    }

    fn record(start: u16, length: u16, kind: Kind, id: u16, parent: u16) -> Record {
        Record {
            start,
            length,
            kind,
            id,
            parent,
        }
    }

    /// An entry that was never written.
    const UNTOUCHED: Record = Record {
        start: 0xA5A5,
        length: 0x5A5A,
        kind: Kind::Dvp,
        id: 0xC3C3,
        parent: 0x3C3C,
    };

    fn read<const ENTRIES: usize>(pool: &[u8]) -> (Result<usize, Refusal>, [Record; ENTRIES]) {
        let mut table = [UNTOUCHED; ENTRIES];
        (read_pool(pool, &mut table), table)
    }

    /// Asserts that the pool is refused and the table is left as it was.
    fn assert_refused(pool: &[u8], number: u8, place: usize) {
        let (result, table) = read::<6>(pool);
        assert_eq!(result, Err(Refusal { number, place }));
        assert_eq!(table, [UNTOUCHED; 6]);
    }

    #[test]
    fn p_has_two_records_and_later_entries_stay() {
        let (result, table) = read(&pool_p());
        assert_eq!(result, Ok(2));
        let expected = [
            record(0, 31, Kind::Dvc, 0, 65_535),
            record(31, 13, Kind::Det, 1, 0),
            UNTOUCHED,
        ];
        assert_eq!(table, expected);
    }

    #[test]
    fn q_has_four_records() {
        let (result, table) = read(&pool_q());
        assert_eq!(result, Ok(4));
        let expected = [
            record(0, 31, Kind::Dvc, 0, 65_535),
            record(31, 13, Kind::Det, 1, 0),
            record(44, 15, Kind::Det, 2, 1),
            record(59, 12, Kind::Dpd, 3, 65_535),
        ];
        assert_eq!(table, expected);
    }

    #[test]
    fn starts_of_p_and_q_on_a_record_boundary_are_read() {
        assert_eq!(read::<4>(&pool_p()[..31]).0, Ok(1));
        assert_eq!(read::<4>(&pool_q()[..59]).0, Ok(3));
    }

    #[test]
    fn an_empty_pool_is_1() {
        assert_refused(&[], 1, 0);
    }

    #[test]
    fn a_pool_over_65535_bytes_is_2_before_its_records_are_looked_at() {
        assert_refused(&[0; 65_536], 2, 0);
        assert_refused(&[0; 65_535], 3, 0);
    }

    #[test]
    fn three_bytes_without_a_mark_are_3_and_fewer_are_4() {
        let mut pool = pool_p();
        for (byte, number) in [(b'x', 4), (b'D', 4), (b'T', 3)] {
            pool.push(byte);
            assert_refused(&pool, number, 44);
        }
        pool.truncate(44);
        pool.extend(*b"DVC");
        assert_refused(&pool, 4, 44);
    }

    #[test]
    fn every_cut_of_q_off_a_record_boundary_is_4_at_the_records_start() {
        let pool = pool_q();
        for length in 1..pool.len() {
            let starts = [59, 44, 31, 0];
            let start = starts.into_iter().find(|&start| start <= length).unwrap();
            if start < length {
                assert_refused(&pool[..length], 4, start);
            }
        }
    }

    #[test]
    fn a_designator_of_128_bytes_is_read_and_129_is_5() {
        let mut pool = pool_p();
        pool[5] = 128;
        pool.splice(6..6, [b'a'; 128]);
        let (result, table) = read(&pool);
        assert_eq!(result, Ok(2));
        let expected = [
            record(0, 159, Kind::Dvc, 0, 65_535),
            record(159, 13, Kind::Det, 1, 0),
        ];
        assert_eq!(table, expected);
        pool[5] = 129;
        assert_refused(&pool, 5, 5);
    }

    #[test]
    fn a_length_byte_over_its_limit_is_5_though_its_text_is_cut() {
        for (at, limit) in [(5, 128), (6, 128), (15, 128), (30, 32)] {
            let mut pool = pool_p()[..=at].to_vec();
            pool[at] = limit;
            assert_refused(&pool, 4, 0);
            pool[at] = limit + 1;
            assert_refused(&pool, 5, at);
        }
    }

    #[test]
    fn a_parent_stands_behind_designator_and_element_number() {
        for designator in [0, 1, 2, 127, 128] {
            let mut pool = b"DET\x01\x02\x03".to_vec();
            pool.push(designator);
            pool.extend(vec![b'a'; designator.into()]);
            pool.extend(*b"\x04\x05\x06\x07\x01\0\x08\x09");
            let expected = record(0, pool.len() as u16, Kind::Det, 0x0201, 0x0706);
            assert_eq!(read(&pool), (Ok(1), [expected]));
        }
    }

    #[test]
    fn an_entry_count_past_the_end_is_4() {
        let mut pool = pool_p();
        pool[42..44].copy_from_slice(&[0xFF, 0xFF]);
        assert_refused(&pool, 4, 31);
    }

    #[test]
    fn a_table_too_short_is_7_with_the_records_needed() {
        let (result, table) = read(&pool_q());
        let number = Refusal::SHORT_TABLE;
        assert_eq!(result, Err(Refusal { number, place: 4 }));
        assert_eq!(table, [UNTOUCHED; 3]);
    }

    #[test]
    fn a_bad_record_is_told_before_a_short_table() {
        let pool = pool_q();
        assert_eq!(
            read_pool(&pool[..70], &mut []),
            Err(Refusal::new(Refusal::CUT_RECORD, 59))
        );
    }
}
