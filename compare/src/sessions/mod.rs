//! Sessions: lists of calls, after each of which both sides and the book are
//! compared, and single calls on any values.

mod call;
mod client;
mod every;
mod fixed;
mod library;
mod lists;
mod tally;
mod values;

pub use call::Call;
pub use client::{Client, Sides};
pub use fixed::longest;
pub use library::{Step, Value};

use client::trace_of_areas;
use fixed::Fixed;
use lists::List;
use std::fs;
use std::path::Path;
use tally::Tally;
use values::Single;

/// Below the repository's root.
const DUMP: &str = "target/compare-session.txt";

/// Compares fixed lists, `lists` seeded ones and twice as many single calls.
pub fn compare(seed: u64, lists: u64, long: bool) -> Report {
    let mut report = Report {
        tally: Tally::new(),
        lists: 0,
        list_calls: 0,
        singles: 0,
        differences: 0,
    };
    for list in fixed::lists(long).into_iter().chain(every::lists()) {
        report.compare_fixed(list);
    }
    for index in 0..lists {
        report.compare_list(seed, index);
    }
    for index in 0..2 * lists {
        report.compare_single(seed, index);
    }
    report
}

pub struct Report {
    tally: Tally,
    pub lists: u64,
    list_calls: u64,
    pub singles: u64,
    pub differences: u64,
}

impl Report {
    fn compare_fixed(&mut self, list: Fixed) {
        let mut client = Client::new(&vec![0xA5; list.area], &vec![0x5A; list.area]);
        let known_from = list.calls.len() - list.last.len();
        self.start(&list.name, &client);
        for (index, call) in list.calls.into_iter().enumerate() {
            let Some(step) = self.call(&list.name, &mut client, call) else {
                return;
            };
            let known = index.checked_sub(known_from).map(|it| list.last[it]);
            if known.is_some_and(|number| number != step.number) {
                let what = format!("{step:?} where {known:?} is known");
                return self.note(&list.name, &what, client.trace());
            }
        }
    }

    fn compare_list(&mut self, seed: u64, index: u64) {
        let name = format!("seed {seed} list {index}");
        let (mut list, mut client) = List::new(seed, index);
        self.start(&name, &client);
        while let Some(call) = list.next(&client.value, client.sides.staging(), client.sides.kept())
        {
            if self.call(&name, &mut client, call).is_none() {
                return;
            }
        }
    }

    fn start(&mut self, name: &str, client: &Client) {
        self.lists += 1;
        if !client.is_new() {
            let what = format!("the new value is {:?}", client.value);
            self.note(name, &what, client.trace());
        }
    }

    /// Makes a call of a list. After a difference the list can't go on, as the
    /// sides no longer have the same state.
    fn call(&mut self, name: &str, client: &mut Client, call: Call) -> Option<Step> {
        let value = client.value;
        self.list_calls += 1;
        let counted = client.call(call).and_then(|step| {
            let call = client.last_call();
            self.tally.count_point(&value, call);
            self.tally.count(&value, call, &client.sides, &step)?;
            Ok(step)
        });
        match counted {
            Ok(step) => Some(step),
            Err(what) => {
                self.note(name, &what, client.trace());
                None
            }
        }
    }

    fn compare_single(&mut self, seed: u64, index: u64) {
        let Single {
            value,
            call,
            mut sides,
        } = values::single(seed, index);
        self.singles += 1;
        let outcome = sides.call(value, &call);
        if let Err(what) = outcome.and_then(|step| self.tally.count(&value, &call, &sides, &step)) {
            let name = format!("seed {seed} single call {index}");
            let before = values::single(seed, index).sides;
            let before = trace_of_areas(before.staging(), before.kept());
            self.note(&name, &what, format!("{before}{value:?}\n{call}\n"));
        }
    }

    /// Counts a difference; the first is shown and the calls up to it are kept.
    fn note(&mut self, name: &str, what: &str, trace: String) {
        self.differences += 1;
        if self.differences > 1 {
            return;
        }
        println!("first difference in a session: {name}");
        println!("  {what}");
        let root = Path::new(env!("CARGO_MANIFEST_DIR")).join("..");
        match fs::write(root.join(DUMP), format!("{name}: {what}\n{trace}")) {
            Ok(()) => println!("  areas and calls in {DUMP}"),
            Err(error) => println!("  {DUMP} was not written: {error}"),
        }
    }

    pub fn print(&self) {
        self.tally.print();
        println!(
            "sessions: {} lists of {} calls, {} calls on single values",
            self.lists, self.list_calls, self.singles
        );
    }

    pub fn unseen(&self) -> Vec<String> {
        self.tally.unseen()
    }
}
