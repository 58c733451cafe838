//! Time logs: layouts, records read and written, whole logs.

mod draft;
mod ladder;
mod library;
mod plan;
mod reading;
mod rules;
mod vector;
mod whole;
mod writing;

pub use draft::Draft;
pub use library::{read_log_into, read_record_into, write_record, Fields, Log, Record};
pub use reading::Reading;
pub use whole::Whole;
pub use writing::Writing;

use crate::grid::Grid;
use crate::library::Of;
use crate::part::{Part, Report};
use draft::REFUSED_LAYOUTS;
use library::Marks;
use std::io;
use vector::Vector;

const MARKS: &[&str] = &["0", "1", "2", "3", "4", "5", "6", "7", "8", "9", "47"];

/// Compares all layouts, and fixed and seeded records and logs; the numbers of
/// the seeded ones grow with the number of pools.
pub fn compare(seed: u64, pools: u64) -> io::Result<Report> {
    let vector = &Vector::load()?;
    Ok(Report {
        parts: vec![
            every_layout(),
            reading::compare(vector, seed, 4 * pools),
            writing::compare(vector, seed, 2 * pools),
            whole::compare(vector, seed, 3 * pools),
        ],
    })
}

/// The number of optional fields of every layout of 16 bits, and of many that
/// would be one of these without their upper half.
fn every_layout() -> Part {
    let grid = Grid::new("optional fields", [""], MARKS, |_, _| true);
    let mut part = Part::new("log layouts", vec![grid]);
    let wide = REFUSED_LAYOUTS
        .into_iter()
        .filter(|&layout| layout > 0xFFFF);
    let each_bit = (16..32).flat_map(|bit| [0, 0x00B, 0x1FF].map(|low| low | 1 << bit));
    for layout in (0..=0xFFFF).chain(wide).chain(each_bit) {
        let outcome = layout_by_both(layout);
        let column = outcome.clone().map(|it| (it.number + it.count).to_string());
        let outcome = column.as_deref().map_err(String::clone);
        part.take(0, 0, outcome, || format!("layout {layout:#05X}"));
    }
    part
}

/// The number of optional fields, if both sides and the rules agree on it.
pub fn layout_by_both(layout: u32) -> Result<Marks, String> {
    let library = library::optional_fields(layout);
    let second = Marks::of(second::optional_fields(layout));
    let owed = Marks::of(rules::optional_fields(layout));
    if library != second {
        Err(format!("{library:?} against {second:?}"))
    } else if second != owed {
        Err(format!("{second:?} where {owed:?} is owed"))
    } else {
        Ok(owed)
    }
}

/// The bytes of an input, for the report of a difference.
fn hex(bytes: &[u8]) -> String {
    const SHOWN: usize = 2_000;
    let shown = bytes.iter().take(SHOWN);
    let shown: String = shown.map(|byte| format!("{byte:02X}")).collect();
    match bytes.len() {
        0 => "none".to_owned(),
        length if length > SHOWN => format!("{shown}..., {length} in all"),
        _ => shown,
    }
}

#[cfg(test)]
mod tests {
    use super::*;

    #[test]
    fn bytes_are_shown_in_full_up_to_a_length() {
        assert_eq!(hex(&[]), "none");
        assert_eq!(hex(&[0, 0xAB]), "00AB");
        assert!(hex(&[1; 2_001]).ends_with("01..., 2001 in all"));
    }
}
