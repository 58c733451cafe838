//! A client whose calls are made by all sides.

use super::call::{Areas, Call};
use super::library::{Step, Value};
use crate::lent::LentArea;
use crate::library::Of;
use lachsbrille::c::session_new;
use second::Book;
use std::fmt::Write;

/// Both sides' areas, which are equal at the start and have to stay so.
pub struct Sides {
    library: Areas,
    second: Areas,
}

impl Sides {
    pub fn new(staging: &[u8], kept: &[u8]) -> Self {
        let areas = || Areas {
            staging: LentArea::new(staging),
            kept: LentArea::new(kept),
        };
        Sides {
            library: areas(),
            second: areas(),
        }
    }

    pub fn staging(&self) -> &[u8] {
        self.library.staging.contents()
    }

    pub fn kept(&self) -> &[u8] {
        self.library.kept.contents()
    }

    /// Has both sides make the call, and gives what both gave or where they
    /// differ: in the answer, the value, an area, the table or a guard.
    pub fn call(&mut self, value: Value, call: &Call) -> Result<Step, String> {
        let (library, library_table) = call.by_library(value, &mut self.library)?;
        let (second, second_table) = call.by_second(value, &mut self.second);
        if library != second {
            return Err(format!("{library:?} against {second:?}"));
        }
        let (ours, theirs) = (&self.library, &self.second);
        let parting = ours
            .staging
            .parting("staging", &theirs.staging)
            .or_else(|| ours.kept.parting("the kept area", &theirs.kept))
            .or_else(|| library_table.parting("table", &second_table));
        parting.map_or(Ok(library), Err)
    }
}

/// A list of calls from a new value on, with the same areas throughout.
pub struct Client {
    pub value: Value,
    pub sides: Sides,
    book: Book,
    /// The areas at the start and all calls, for the report of a difference.
    start: [Vec<u8>; 2],
    calls: Vec<Call>,
}

impl Client {
    /// The value is the library's; `is_new` compares it with the others'.
    pub fn new(staging: &[u8], kept: &[u8]) -> Self {
        Client {
            value: session_new(),
            sides: Sides::new(staging, kept),
            book: Book::new(),
            start: [staging.into(), kept.into()],
            calls: Vec::new(),
        }
    }

    /// Has all sides make the call.
    pub fn call(&mut self, call: Call) -> Result<Step, String> {
        let (staging, kept) = (self.sides.staging().len(), self.sides.kept().len());
        let entry = call.by_book(&mut self.book, staging, kept);
        let outcome = self.sides.call(self.value, &call);
        self.calls.push(call);
        let step = outcome?;
        let by_book = Step::of((&self.book, entry));
        if step != by_book {
            return Err(format!("{step:?} against the book's {by_book:?}"));
        }
        if !self.sides.staging().starts_with(self.book.arrived()) {
            return Err("staging does not start with what arrived".into());
        }
        if !self.sides.kept().starts_with(self.book.kept()) {
            return Err("the kept area does not start with the kept pool".into());
        }
        self.value = step.session;
        Ok(step)
    }

    /// The call made last.
    pub fn last_call(&self) -> &Call {
        self.calls.last().expect("a call was made")
    }

    /// Whether the first value is new on all sides.
    pub fn is_new(&self) -> bool {
        let session = second::Session::new();
        self.value == Value::of(session) && self.value == Value::of(&Book::new())
    }

    /// The whole list, so that its calls can be made again.
    pub fn trace(&self) -> String {
        let [staging, kept] = &self.start;
        let mut trace = trace_of_areas(staging, kept);
        for call in &self.calls {
            writeln!(trace, "{call}").expect("a String takes every line");
        }
        trace
    }
}

/// The areas' bytes.
pub fn trace_of_areas(staging: &[u8], kept: &[u8]) -> String {
    format!("staging: {staging:02X?}\nkept area: {kept:02X?}\n")
}
