//! Process data messages, judged commands and displayed values.

mod display;
mod judging;
mod library;
mod messages;
mod vectors;

pub use display::Asked;
pub use judging::judge_by_both;
pub use library::{displayed, read_message, write_value, Fields, Order};
pub use messages::{read_by_both, write_by_both};

use crate::part::Report;
use std::io;

/// Compares fixed and seeded messages, commands and values; the numbers of
/// the seeded ones grow with the number of pools.
pub fn compare(seed: u64, pools: u64) -> io::Result<Report> {
    Ok(Report {
        parts: vec![
            messages::compare(seed, 10 * pools)?,
            judging::compare(seed, pools / 2),
            display::compare(seed, 60 * pools),
        ],
    })
}
