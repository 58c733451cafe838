//! The refusals of a call, counted one by one and by the other causes for which
//! the input could be refused, so that their order is seen too.

use super::rules::Causes;
use crate::grid::Grid;
use crate::part::Part;

/// The grids, by their place in a part.
const REFUSALS: usize = 0;
const WAYS: usize = 1;
pub const MORE: usize = 2;

const IN_ALL: &str = "in all";
const ALONE: &str = "alone";
/// The columns; "and" with the number of the other cause.
const COLUMNS: &[&str] = &[
    IN_ALL, ALONE, "and 40", "and 41", "and 42", "and 43", "and 44", "and 45", "and 46", "and 48",
];

/// The order of a call's refusals, and the ways in which its answers come
/// about.
pub struct Ladder {
    pub name: &'static str,
    /// The titles of its two grids.
    pub titles: [&'static str; 2],
    pub order: &'static [u32],
    pub ways: &'static [&'static str],
}

impl Ladder {
    /// A part with these two grids, and one more if there is one.
    pub fn part(&self, more: Option<Grid>) -> Part {
        let [refusals, ways] = self.titles;
        let rows = self.order.iter().map(u32::to_string).chain(["0".into()]);
        let refusals = Grid::new(refusals, rows, COLUMNS, |row, column| match column {
            IN_ALL => true,
            ALONE => row < self.order.len(),
            _ => self
                .order
                .iter()
                .skip(row + 1)
                .any(|&number| column == beside(number)),
        });
        let ways = Grid::new(ways, [""], self.ways, |_, _| true);
        Part::new(
            self.name,
            [refusals, ways].into_iter().chain(more).collect(),
        )
    }

    /// Counts a call of both sides that gave this number in this way, or notes
    /// where they differ. The number has to be that of the first cause.
    pub fn take(
        &self,
        part: &mut Part,
        causes: Causes,
        outcome: Result<(u32, &str), String>,
        input: impl Fn() -> String,
    ) {
        let due = causes.first(self.order);
        let places = self.order.iter();
        let row = places.take_while(|&&number| number != due).count();
        let outcome = outcome.and_then(|(number, way)| match number == due {
            true => Ok(way),
            false => Err(format!("{number} where {due} is due")),
        });
        let way = outcome.clone().ok();
        part.take(REFUSALS, row, outcome.map(|_| IN_ALL), &input);
        let Some(way) = way else {
            return;
        };
        part.count(WAYS, 0, way, &input);
        let behind = self.order.iter().skip(row + 1);
        let others: Vec<u32> = behind.copied().filter(|&it| causes.hold(it)).collect();
        if due != 0 && others.is_empty() {
            part.count(REFUSALS, row, ALONE, &input);
        }
        for number in others {
            part.count(REFUSALS, row, beside(number), &input);
        }
    }
}

/// The column of a cause that holds besides the first.
fn beside(number: u32) -> &'static str {
    match number {
        40 => "and 40",
        41 => "and 41",
        42 => "and 42",
        43 => "and 43",
        44 => "and 44",
        45 => "and 45",
        46 => "and 46",
        48 => "and 48",
        _ => "and another number",
    }
}

#[cfg(test)]
mod tests {
    use super::*;
    use crate::part::Report;

    const LADDER: Ladder = Ladder {
        name: "calls",
        titles: ["call", "call, how"],
        order: &[47, 40, 41],
        ways: &["way"],
    };

    fn take(report: &mut Report, bytes: &[u8], layout: u32, number: u32) {
        let causes = Causes::of_reading(bytes, layout, 0, [0; 2]);
        let outcome = Ok((number, "way"));
        LADDER.take(&mut report.parts[0], causes, outcome, String::new);
    }

    #[test]
    fn a_refusal_is_due_alone_and_beside_each_later_cause() {
        let parts = vec![LADDER.part(None)];
        let mut report = Report { parts };
        assert_eq!(report.unseen().len(), 4 + 3 + 2 + 1 + 1);
        take(&mut report, &[255; 6], 512, 47);
        take(&mut report, &[255; 6], 0, 40);
        take(&mut report, &[255, 255, 255, 255, 0, 0, 0], 0, 41);
        assert_eq!(
            report.unseen(),
            ["call, 47: alone", "call, 40: alone", "call, 0: in all"]
        );
        take(&mut report, &[0; 7], 512, 47);
        take(&mut report, &[0; 6], 0, 40);
        take(&mut report, &[0; 7], 0, 0);
        assert!(report.unseen().is_empty());
        assert_eq!((report.compared(), report.differences()), (6, 0));
    }

    #[test]
    fn another_number_than_that_of_the_first_cause_is_a_difference() {
        let parts = vec![LADDER.part(None)];
        let mut report = Report { parts };
        take(&mut report, &[255; 6], 0, 41);
        take(&mut report, &[0; 7], 0, 40);
        take(&mut report, &[0; 6], 0, 0);
        assert_eq!((report.compared(), report.differences()), (3, 3));
        assert_eq!(report.unseen().len(), 11);
    }
}
