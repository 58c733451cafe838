//! The fields of a record, read by both sides where records start and at other
//! places, in pools that are read and in others.

mod known;
mod library;

use crate::grid::Grid;
use crate::input::Input;
use crate::lent::LentPool;
use crate::library::Of;
use crate::part::{Part, Report};
use crate::random::Random;
use crate::verdict::Verdict;
use lachsbrille::c::{Device, Element, Presentation, ProcessData, Property};
use second::Kind;
use std::collections::BTreeSet;
use std::fmt::Debug;

/// About how many records of a pool are looked at, always with the last one.
const RECORDS: usize = 8;
/// How many places are drawn within a pool; one more is drawn anywhere.
const DRAWN: usize = 3;
/// How many bytes of a pool are shown if the sides differ.
const SHOWN: usize = 2_000;

const COLUMNS: &[&str] = &[
    "its kind",
    "another kind",
    "in a record",
    "not read",
    "cut",
    "behind the end",
];

/// What a record is read as.
#[derive(Clone, Copy, Debug)]
pub enum View {
    Device,
    Element,
    /// An entry of an element's list.
    Entry(u16),
    ProcessData,
    Property,
    Presentation,
}

const ROWS: [&str; 6] = [
    "device",
    "element",
    "entry",
    "process data",
    "property",
    "presentation",
];

impl View {
    fn row(self) -> usize {
        match self {
            View::Device => 0,
            View::Element => 1,
            View::Entry(_) => 2,
            View::ProcessData => 3,
            View::Property => 4,
            View::Presentation => 5,
        }
    }

    fn kind(self) -> Kind {
        match self {
            View::Device => Kind::Dvc,
            View::Element | View::Entry(_) => Kind::Det,
            View::ProcessData => Kind::Dpd,
            View::Property => Kind::Dpt,
            View::Presentation => Kind::Dvp,
        }
    }

    /// Has both sides read, and gives the end of what they read, or where they
    /// differ.
    pub fn by_both(self, pool: &[u8], start: u16) -> Result<usize, String> {
        match self {
            View::Device => {
                let second = second::read_device(pool, start);
                let end = second.extended.end;
                same(library::device(pool, start), Device::of(second), end)
            }
            View::Element => {
                let second = second::read_element(pool, start);
                let end = second.designator.end + 6;
                same(library::element(pool, start), Element::of(second), end)
            }
            View::Entry(n) => {
                let second = second::read_entry(pool, start, n);
                let list = second::read_element(pool, start).designator.end + 6;
                let end = list + 2 * usize::from(n) + 2;
                same(library::entry(pool, start, n), second, end)
            }
            View::ProcessData => {
                let second = second::read_process_data(pool, start);
                let end = second.designator.end + 2;
                let library = library::process_data(pool, start);
                same(library, ProcessData::of(second), end)
            }
            View::Property => {
                let second = second::read_property(pool, start);
                let end = second.designator.end + 2;
                same(library::property(pool, start), Property::of(second), end)
            }
            View::Presentation => {
                let second = second::read_presentation(pool, start);
                let end = second.unit.end;
                let library = library::presentation(pool, start);
                same(library, Presentation::of(second), end)
            }
        }
    }
}

fn same<Fields: PartialEq + Debug>(
    library: Fields,
    second: Fields,
    end: usize,
) -> Result<usize, String> {
    if library == second {
        Ok(end)
    } else {
        Err(format!("{library:?} against {second:?}"))
    }
}

/// Everything that can be read at a place, with entries around the list's end.
pub fn views(pool: &[u8], start: u16) -> impl Iterator<Item = View> {
    let count = second::read_element(pool, start).entries;
    let entries = BTreeSet::from([0, count / 2, count.wrapping_sub(1), count, 65_535]);
    [
        View::Device,
        View::Element,
        View::ProcessData,
        View::Property,
        View::Presentation,
    ]
    .into_iter()
    .chain(entries.into_iter().map(View::Entry))
}

/// A report for the pools of a run.
pub fn report() -> Report {
    let grid = Grid::new("fields read", ROWS, COLUMNS, |_, _| true);
    Report {
        parts: vec![Part::new("fields of records", vec![grid])],
    }
}

/// Reads the pool at some places.
pub fn compare(report: &mut Report, input: &Input, verdict: &Verdict, pool: &LentPool) {
    let part = &mut report.parts[0];
    let bytes = pool.bytes();
    for start in starts(verdict, bytes) {
        for view in views(bytes, start) {
            let outcome = view.by_both(bytes, start);
            let column = outcome.map(|end| column(view, verdict, bytes, start, end));
            part.take(0, view.row(), column, || describe(input, view, start));
        }
    }
    if pool.is_changed() {
        part.note("the pool was changed", || input.name.clone());
    }
    if input.objects.len() == verdict.records.len() {
        for (object, record) in input.objects.iter().zip(&verdict.records) {
            if !known::are_of(object, bytes, record.start) {
                let what = "the fields are not those that were written";
                part.note(what, || format!("{}, at {}", input.name, record.start));
            }
        }
    }
}

/// Starts of records, places around both ends of the pool, the last place of
/// all, and some that are drawn.
fn starts(verdict: &Verdict, pool: &[u8]) -> BTreeSet<u16> {
    let records = verdict.records.iter().map(|record| record.start);
    let step = verdict.records.len().div_ceil(RECORDS).max(1);
    let mut starts: BTreeSet<u16> = records.step_by(step).collect();
    starts.extend(verdict.records.last().map(|record| record.start));
    let random = &mut Random::new(pool.len() as u64);
    let within = (0..DRAWN).map(|_| random.below(pool.len().max(1)));
    let within: Vec<usize> = within.collect();
    let anywhere = random.below(1 << 16);
    let length = pool.len();
    let ends = [0, 1, length.saturating_sub(1), length, 65_535];
    let others = ends.into_iter().chain(within).chain([anywhere]);
    starts.extend(others.filter_map(|place| u16::try_from(place).ok()));
    starts
}

/// What is at the place `start`, given where the fields that were read end.
fn column(view: View, verdict: &Verdict, pool: &[u8], start: u16, end: usize) -> &'static str {
    let record = verdict.records.iter().find(|it| it.start == start);
    match record {
        _ if usize::from(start) >= pool.len() => "behind the end",
        _ if end > pool.len() => "cut",
        _ if verdict.is_refused() => "not read",
        None => "in a record",
        Some(record) if record.kind == view.kind() => "its kind",
        Some(_) => "another kind",
    }
}

fn describe(input: &Input, view: View, start: u16) -> String {
    let bytes = input.pool.iter().take(SHOWN);
    let bytes: String = bytes.map(|byte| format!("{byte:02X}")).collect();
    format!("{}, {view:?} at {start}, pool {bytes}", input.name)
}
