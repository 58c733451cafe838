//! Parts of the comparison whose answers are counted in grids.

use crate::grid::Grid;

pub struct Report {
    pub parts: Vec<Part>,
}

impl Report {
    pub fn print(&self) {
        self.parts.iter().for_each(Part::print);
    }

    pub fn unseen(&self) -> Vec<String> {
        let grids = self.parts.iter().flat_map(|part| &part.grids);
        grids.flat_map(Grid::unseen).collect()
    }

    pub fn compared(&self) -> u64 {
        self.parts.iter().map(|part| part.compared).sum()
    }

    pub fn differences(&self) -> u64 {
        self.parts.iter().map(|part| part.differences).sum()
    }
}

/// How much was compared in one part, and the answers.
pub struct Part {
    name: &'static str,
    grids: Vec<Grid>,
    compared: u64,
    differences: u64,
}

impl Part {
    pub fn new(name: &'static str, grids: Vec<Grid>) -> Self {
        Part {
            name,
            grids,
            compared: 0,
            differences: 0,
        }
    }

    /// Counts a call of both sides. The outcome is the column of its answer in
    /// this row of a grid, or where the sides differ.
    pub fn take(
        &mut self,
        grid: usize,
        row: usize,
        outcome: Result<&str, String>,
        input: impl FnOnce() -> String,
    ) {
        self.compared += 1;
        match outcome {
            Ok(column) => self.count(grid, row, column, input),
            Err(what) => self.note(&what, input),
        }
    }

    /// Counts an answer in this row and column of a grid.
    pub fn count(&mut self, grid: usize, row: usize, column: &str, input: impl FnOnce() -> String) {
        if let Err(what) = self.grids[grid].count(row, column) {
            self.note(&what, input);
        }
    }

    /// Counts a difference; the first is shown.
    pub fn note(&mut self, what: &str, input: impl FnOnce() -> String) {
        self.differences += 1;
        if self.differences == 1 {
            println!("first difference in {}: {}", self.name, input());
            println!("  {what}");
        }
    }

    fn print(&self) {
        self.grids.iter().for_each(Grid::print);
        println!("{}: {} compared", self.name, self.compared);
    }
}
