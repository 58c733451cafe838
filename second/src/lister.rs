//! The lister's output.

use crate::faults::Fault;
use crate::pool::Record;
use crate::rules::read_and_check;
use std::fmt::Write;

/// Entries of the lister's table.
const LISTER_ENTRIES: usize = 2_048;
/// The most faults that the lister prints.
const LISTER_FAULTS: usize = 1_024;

/// What the lister prints for `pool`.
pub fn list(pool: &[u8]) -> String {
    let mut table = [Record::default(); LISTER_ENTRIES];
    let mut faults = [Fault::default(); LISTER_FAULTS];
    match read_and_check(pool, &mut table, &mut faults) {
        Ok((records, count)) => {
            let printed = &faults[..count.min(LISTER_FAULTS)];
            record_lines(records) + &verdict_lines(printed)
        }
        Err(refusal) => format!("refused {} {}\n", refusal.number, refusal.place),
    }
}

fn record_lines(records: &[Record]) -> String {
    let mut lines = format!("records {}\n", records.len());
    for record in records {
        let Record {
            start,
            length,
            kind,
            id,
            ..
        } = record;
        writeln!(lines, "{} {id} at {start} length {length}", kind.mark())
            .expect("a String takes every line");
    }
    lines
}

fn verdict_lines(faults: &[Fault]) -> String {
    if faults.is_empty() {
        return "accepted\n".into();
    }
    let mut lines = String::new();
    for fault in faults {
        let Fault {
            record,
            rule,
            item,
            id,
            parent,
        } = fault;
        writeln!(lines, "fault {record} {rule} {item} {id} {parent}")
            .expect("a String takes every line");
    }
    lines
}

#[cfg(test)]
mod tests {
    use super::*;

    const DPD: &[u8; 12] = b"DPD\x03\0\x8D\0\x01\x09\0\xFF\xFF";
    const DET: &[u8; 13] = b"DET\x01\0\x01\0\0\0\0\0\0\0";

    fn device() -> Vec<u8> {
        [&b"DVC\0\0"[..], &[0; 11], &[1; 7], b"en\0\0\0\0\xFF\0"].concat()
    }

    #[test]
    fn a_line_for_each_record() {
        let pool = [&DPD[..], b"DET\x01\x02\x01\0\0\0\0\0\0\0"].concat();
        let expected = "records 2\nDPD 3 at 0 length 12\nDET 513 at 12 length 13\n";
        assert!(list(&pool).starts_with(expected));
    }

    #[test]
    fn a_sound_pool_is_accepted() {
        let pool = [&device()[..], DET].concat();
        let expected = "records 2\nDVC 0 at 0 length 31\nDET 1 at 31 length 13\naccepted\n";
        assert_eq!(list(&pool), expected);
    }

    #[test]
    fn a_line_for_each_fault_those_of_the_whole_pool_first() {
        let pool = [&DET[..], DPD, DPD].concat();
        let records =
            "records 3\nDET 1 at 0 length 13\nDPD 3 at 13 length 12\nDPD 3 at 25 length 12\n";
        let faults = "fault 0 10 1 65535 65535\nfault 1 6 1 1 0\nfault 3 2 1 3 65535\n";
        assert_eq!(list(&pool), format!("{records}{faults}"));
    }

    /// The fault lines for a pool of equal records: two for the whole pool,
    /// then one for each record but the first.
    fn fault_lines(records: usize) -> Vec<String> {
        let output = list(&DPD.repeat(records));
        let lines = output.lines().skip(1 + records);
        lines.map(str::to_owned).collect()
    }

    #[test]
    fn the_first_1024_faults_are_printed() {
        for (records, faults) in [
            (1_022, 1_023),
            (1_023, 1_024),
            (1_024, 1_024),
            (2_048, 1_024),
        ] {
            let lines = fault_lines(records);
            assert_eq!(lines.len(), faults);
            let first = [
                "fault 0 10 1 65535 65535",
                "fault 0 11 1 65535 65535",
                "fault 2 2 1 3 65535",
            ];
            assert_eq!(lines[..3], first);
            let last = format!("fault {} 2 1 3 65535", faults - 1);
            assert_eq!(lines[faults - 1], last);
        }
    }

    #[test]
    fn a_refusal_is_the_one_line() {
        assert_eq!(list(&[]), "refused 1 0\n");
        assert_eq!(list(&DPD[..11]), "refused 4 0\n");
        assert_eq!(list(&[0; 70_000]), "refused 2 0\n");
    }

    #[test]
    fn the_table_has_2048_entries() {
        assert!(list(&DPD.repeat(2_048)).starts_with("records 2048\n"));
        assert_eq!(list(&DPD.repeat(2_049)), "refused 7 2049\n");
    }
}
