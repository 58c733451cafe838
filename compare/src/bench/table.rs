//! The table that a run prints.

use super::times::{Pair, Times};

const NAME: usize = 46;
const COLUMN: usize = 9;

/// A line of the table: work that both sides did.
pub struct Row {
    pub name: String,
    pub pair: Pair,
    /// What the group has in its fourth pair of columns.
    pub beside: Option<Times>,
}

/// Lines of one kind.
pub struct Group {
    pub name: &'static str,
    /// What is timed.
    pub of: String,
    pub unit: Unit,
    /// The title of the fourth pair of columns; may be empty.
    pub beside: &'static str,
    pub rows: Vec<Row>,
}

#[derive(Clone, Copy)]
pub enum Unit {
    Nanoseconds,
    Microseconds,
}

impl Unit {
    fn sign(self) -> &'static str {
        match self {
            Unit::Nanoseconds => "ns",
            Unit::Microseconds => "µs",
        }
    }

    fn of(self, microseconds: Times) -> Times {
        match self {
            Unit::Nanoseconds => microseconds.scaled(1e3),
            Unit::Microseconds => microseconds,
        }
    }
}

impl Row {
    pub fn new(name: impl Into<String>, pair: Pair) -> Self {
        Row {
            name: name.into(),
            pair,
            beside: None,
        }
    }
}

impl Group {
    pub fn print(&self) {
        let title = format!("{}: {} a {}", self.name, self.unit.sign(), self.of);
        let width = NAME + 6 * COLUMN;
        let beside = self.beside;
        let line = format!("{title:<width$}{beside:>0$}", 2 * COLUMN);
        println!("\n{}", line.trim_end());
        for row in &self.rows {
            let Pair {
                library,
                second,
                ratio,
            } = row.pair;
            let figures = [self.unit.of(library), self.unit.of(second), ratio];
            print_line(&row.name, figures.into_iter().chain(row.beside));
        }
    }
}

/// Prints what is above the groups.
pub fn print_head() {
    println!("times of both sides; library/second below 1.0: the library is faster\n");
    let titles = ["library", "second", "library/second"];
    print_titles("", &titles.map(String::from));
}

/// Prints titles of pairs of columns, and under them what each pair is.
pub fn print_titles(name: &str, titles: &[String]) {
    let pairs: String = titles
        .iter()
        .map(|it| format!("{it:>0$}", 2 * COLUMN))
        .collect();
    println!("{name:<NAME$}{pairs}");
    let columns = format!("{:>COLUMN$}{:>COLUMN$}", "best", "median");
    println!("{:NAME$}{}", "", columns.repeat(titles.len()));
}

pub fn print_line(name: &str, figures: impl IntoIterator<Item = Times>) {
    print!("  {name:<0$}", NAME - 2);
    for Times { best, median } in figures {
        print!("{best:>COLUMN$.2}{median:>COLUMN$.2}");
    }
    println!();
}

/// Prints the lines in which the library is slower, the slowest first.
pub fn print_slower(groups: &[Group]) {
    let mut rows: Vec<(&Group, &Row)> = Vec::new();
    for group in groups {
        rows.extend(group.rows.iter().map(|row| (group, row)));
    }
    let ratios = rows.iter().map(|(_, row)| row.pair.ratio);
    let best = ratios.clone().filter(|ratio| ratio.best > 1.0).count();
    let median = ratios.filter(|ratio| ratio.median > 1.0).count();
    let all = rows.len();
    println!("\nabove 1.0: {best} of {all} rows by the best times, {median} by the median");
    rows.retain(|(_, row)| row.pair.ratio.best.max(row.pair.ratio.median) > 1.0);
    rows.sort_by(|(_, a), (_, b)| b.pair.ratio.best.total_cmp(&a.pair.ratio.best));
    for (group, row) in rows {
        let Times { best, median } = row.pair.ratio;
        let name = format!("{}: {}", group.name, row.name);
        println!("{best:>COLUMN$.3}{median:>COLUMN$.3}  {name}");
    }
}

/// A number with its digits in groups of three, separated by commas.
pub fn grouped(number: usize) -> String {
    if number < 1_000 {
        number.to_string()
    } else {
        format!("{},{:03}", grouped(number / 1_000), number % 1_000)
    }
}

#[cfg(test)]
mod tests {
    use super::*;

    #[test]
    fn digits_are_grouped_by_three() {
        let written = [0, 999, 1_000, 65_005, 1_000_000].map(grouped);
        assert_eq!(written, ["0", "999", "1,000", "65,005", "1,000,000"]);
    }
}
