//! Answers counted by what was asked and what was given.

/// The least width of a column.
const NARROWEST: usize = 9;
const HEAD: usize = 24;

pub struct Grid {
    title: &'static str,
    rows: Vec<String>,
    columns: &'static [&'static str],
    /// Row by row: whether the answer can be given, and how often it was.
    cells: Vec<(bool, u64)>,
}

impl Grid {
    /// `can_be` says whether the rules allow the answer of a row and a column.
    pub fn new(
        title: &'static str,
        rows: impl IntoIterator<Item = impl Into<String>>,
        columns: &'static [&'static str],
        can_be: impl Fn(usize, &str) -> bool,
    ) -> Self {
        let rows: Vec<String> = rows.into_iter().map(Into::into).collect();
        let cells = (0..rows.len())
            .flat_map(|row| columns.iter().map(move |column| (row, column)))
            .map(|(row, column)| (can_be(row, column), 0))
            .collect();
        Grid {
            title,
            rows,
            columns,
            cells,
        }
    }

    /// Counts an answer. One that can't be given is an error, even if both
    /// sides give it.
    pub fn count(&mut self, row: usize, column: &str) -> Result<(), String> {
        let place = self.columns.iter().position(|it| *it == column);
        let cell = place.map(|place| &mut self.cells[row * self.columns.len() + place]);
        match cell {
            Some((true, count)) => {
                *count += 1;
                Ok(())
            }
            _ => Err(format!(
                "{}, {}: {column} can't be given",
                self.title, self.rows[row]
            )),
        }
    }

    pub fn print(&self) {
        let width = |column: &str| NARROWEST.max(column.len() + 2);
        print!("{:<HEAD$}", self.title);
        for column in self.columns {
            let width = width(column);
            print!("{column:>width$}");
        }
        println!();
        for (row, cells) in self.rows.iter().zip(self.lines()) {
            print!("{row:<HEAD$}");
            for (column, (can_be, count)) in self.columns.iter().zip(cells) {
                let shown = if *can_be {
                    count.to_string()
                } else {
                    "-".to_owned()
                };
                let width = width(column);
                print!("{shown:>width$}");
            }
            println!();
        }
    }

    /// Answers that can be given and never were.
    pub fn unseen(&self) -> Vec<String> {
        let mut unseen = Vec::new();
        for (row, cells) in self.rows.iter().zip(self.lines()) {
            for (column, cell) in self.columns.iter().zip(cells) {
                if *cell == (true, 0) {
                    unseen.push(format!("{}, {row}: {column}", self.title));
                }
            }
        }
        unseen
    }

    fn lines(&self) -> impl Iterator<Item = &[(bool, u64)]> {
        self.cells.chunks(self.columns.len())
    }
}

#[cfg(test)]
mod tests {
    use super::*;

    #[test]
    fn answers_are_due_where_they_can_be() {
        let can_be = |row: usize, column: &str| row == 0 || column == "0";
        let mut grid = Grid::new("asked", ["a", "b"], &["0", "31"], can_be);
        assert_eq!(
            grid.unseen(),
            ["asked, a: 0", "asked, a: 31", "asked, b: 0"]
        );
        assert!(grid.count(1, "31").is_err());
        assert!(grid.count(0, "32").is_err());
        for (row, column) in [(0, "0"), (0, "31"), (1, "0")] {
            assert_eq!(grid.count(row, column), Ok(()));
        }
        assert!(grid.unseen().is_empty());
    }
}
