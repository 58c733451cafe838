//! Sound pools of several sizes, and how the time per byte grows with them.

use super::case::{Case, Work};
use super::table::{grouped, print_line, print_titles, Group, Row, Unit};
use super::times::{Pair, Rounds, Times};
use crate::realistic::realistic;

const SIZES: [usize; 4] = [1_000, 8_000, 32_000, 65_000];
/// Bytes worked through in a round, which makes it long compared with the
/// clock's resolution.
const ROUND_BYTES: usize = 500_000;

/// One kind of work on pools of increasing sizes.
pub struct Growth {
    pub name: &'static str,
    pub sizes: Vec<Size>,
}

pub struct Size {
    pub bytes: usize,
    pub records: usize,
    pub pair: Pair,
}

impl Growth {
    /// Times this work, in the given number of rounds.
    pub fn of(name: &'static str, work: Work, rounds: usize) -> Result<Self, String> {
        let mut timed: Vec<(Case, Rounds)> = SIZES
            .map(|size| (Case::new(&realistic(size)), Rounds::default()))
            .into();
        for (case, _) in &timed {
            case.compare(work)?;
        }
        // Each round has all sizes and both sides, so that a busy machine slows
        // down all of them.
        for _ in 0..rounds {
            for (case, rounds) in &mut timed {
                let calls = ROUND_BYTES / case.pool.len();
                rounds.push(|side| case.time(side, work, calls));
            }
        }
        let sizes = timed.iter().map(|(case, rounds)| Size {
            bytes: case.pool.len(),
            records: case.records(),
            pair: rounds.pair(),
        });
        Ok(Growth {
            name,
            sizes: sizes.collect(),
        })
    }

    pub fn group(&self) -> Group {
        let row = |size: &Size| {
            let (bytes, records) = (grouped(size.bytes), grouped(size.records));
            Row::new(format!("{bytes} bytes, {records} records"), size.pair)
        };
        Group {
            name: self.name,
            of: "sound pool".into(),
            unit: Unit::Microseconds,
            beside: "",
            rows: self.sizes.iter().map(row).collect(),
        }
    }

    fn print(&self) {
        let name = self.name;
        print_line(
            &format!("{name}, library"),
            self.sizes.iter().map(Size::library),
        );
        print_line(
            &format!("{name}, second"),
            self.sizes.iter().map(Size::second),
        );
        let ratios = self.sizes.iter().map(|size| size.pair.ratio);
        print_line(&format!("{name}, library/second"), ratios);
    }
}

impl Size {
    /// The library's times in nanoseconds per byte.
    pub fn library(&self) -> Times {
        self.a_byte(self.pair.library)
    }

    /// The second implementation's times in nanoseconds per byte.
    pub fn second(&self) -> Times {
        self.a_byte(self.pair.second)
    }

    fn a_byte(&self, microseconds: Times) -> Times {
        microseconds.scaled(1e3 / self.bytes as f64)
    }
}

/// Prints the time per byte at each size. All have the same sizes.
pub fn print_growth(growths: &[Growth]) {
    println!();
    let bytes = |size: &Size| format!("{} bytes", grouped(size.bytes));
    let titles: Vec<String> = growths[0].sizes.iter().map(bytes).collect();
    print_titles("growth: ns a byte of a sound pool", &titles);
    growths.iter().for_each(Growth::print);
}
