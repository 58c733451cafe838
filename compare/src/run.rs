//! The differential run.

use crate::breaches::Breach;
use crate::calls::{self, Compared};
use crate::census::Census;
use crate::exchange;
use crate::fixed;
use crate::generated;
use crate::input::{Input, Known};
use crate::lent::LentPool;
use crate::library::FAULT_WORDS;
use crate::lister::Lister;
use crate::logs;
use crate::objects::NO_REFERENCE;
use crate::part;
use crate::queries::queries;
use crate::sessions;
use crate::tally::Tallies;
use crate::texts::{self, Report};
use crate::verdict::{Effort, Verdict};
use crate::views;
use second::Fault;
use std::fs;
use std::io;
use std::path::PathBuf;
use std::thread;

/// Below the repository's root.
const DUMP: &str = "target/compare-difference.hex";
/// As much as the main thread has on Linux: a call may need hundreds of KB.
const STACK: usize = 8 << 20;
/// With longer pools fewer calls are made, unless the run is a long one.
const SHORT_POOL: usize = 2_000;
/// The faults of longer pools, or of pools with more faults, are not counted:
/// finding their causes would take long.
const LONGEST_COUNTED: usize = 16_000;
const MOST_COUNTED: usize = 1_000;

pub struct Options {
    pub lister: PathBuf,
    pub seed: u64,
    /// Seeded inputs.
    pub pools: u64,
    /// How many of them are also given to the lister.
    pub listed: u64,
    /// Seeded lists of session calls.
    pub lists: u64,
    pub long: bool,
}

/// Runs everything, prints the report and tells whether all agreed. The pools
/// are compared in parallel with everything that does not need them.
pub fn run(options: Options) -> io::Result<bool> {
    thread::scope(|scope| {
        let beside = thread::Builder::new().stack_size(STACK);
        let others = beside.spawn_scoped(scope, || Others::compare(&options))?;
        let mut run = Run::new(Lister::new(options.lister.clone()), options.long);
        run.compare_pools(&options)?;
        let others = others.join().expect("the other thread ends")?;
        Ok(run.report(&others))
    })
}

/// What is compared apart from pools.
struct Others {
    texts: Report,
    sessions: sessions::Report,
    parts: [part::Report; 2],
}

impl Others {
    fn compare(options: &Options) -> io::Result<Self> {
        let Options { seed, pools, .. } = *options;
        Ok(Others {
            texts: texts::compare(seed, pools),
            sessions: sessions::compare(seed, options.lists, options.long),
            parts: [exchange::compare(seed, pools)?, logs::compare(seed, pools)?],
        })
    }
}

struct Run {
    lister: Lister,
    long: bool,
    tallies: Tallies,
    census: Census,
    /// Fields of records.
    fields: part::Report,
    differences: u64,
}

impl Run {
    fn new(lister: Lister, long: bool) -> Self {
        Run {
            lister,
            long,
            tallies: Tallies::new(),
            census: Census::new(),
            fields: views::report(),
            differences: 0,
        }
    }

    fn compare_pools(&mut self, options: &Options) -> io::Result<()> {
        for input in fixed::inputs()? {
            self.compare(&input);
        }
        let stride = (options.pools / options.listed.max(1)).max(1);
        for index in 0..options.pools {
            let mut input = generated::input(options.seed, index);
            input.listed = index % stride == 0;
            self.compare(&input);
        }
        Ok(())
    }

    fn compare(&mut self, input: &Input) {
        let verdict = Verdict::of(&input.pool);
        self.tallies.of(input.class).count_input(&verdict);
        if is_counted(input, &verdict) {
            self.census.count(&input.objects, &verdict.faults);
        }
        self.compare_with_known(input, &verdict);
        self.compare_with_library(input, &verdict);
        if input.listed {
            self.compare_with_lister(input);
        }
    }

    /// Compares the second implementation itself with what is known beforehand.
    fn compare_with_known(&mut self, input: &Input, verdict: &Verdict) {
        let agrees = match &input.known {
            Known::Nothing => true,
            Known::Output(output) => second::list(&input.pool) == *output,
            Known::Records(records) => verdict.records == *records,
            Known::Breaches(breaches) => {
                let found = verdict.faults.iter().map(Breach::of);
                !verdict.is_refused() && found.eq(breaches.iter().copied())
            }
            Known::Breach(breach) => verdict.faults.iter().any(|it| Breach::of(it) == *breach),
        };
        if !agrees || !has_ids_of_objects(input, verdict) {
            self.note(input, "the second implementation parts from what is known");
        }
    }

    fn compare_with_library(&mut self, input: &Input, verdict: &Verdict) {
        let pool = &LentPool::new(&input.pool);
        let effort = self.effort(input);
        for table in verdict.tables(effort) {
            self.take(input, calls::read(pool, table), || {
                format!("reading, table of {table} words")
            });
        }
        let mut most_room = 0;
        for (table, faults) in verdict.lists(effort) {
            let compared = calls::check(pool, table, faults);
            if compared.number == 0 {
                self.tallies.count_buffer(verdict, faults);
                most_room = most_room.max(faults / FAULT_WORDS);
            }
            self.take(input, compared, || {
                format!("checking, table of {table} words, faults of {faults}")
            });
        }
        if let Err(what) = self.tallies.count_faults(verdict, most_room) {
            self.note(input, &what);
        }
        self.compare_queries(input, verdict, pool);
        views::compare(&mut self.fields, input, verdict, pool);
    }

    fn effort(&self, input: &Input) -> Effort {
        let by_length = if input.pool.len() <= SHORT_POOL {
            Effort::Full
        } else {
            Effort::Usual
        };
        let effort = input.effort.unwrap_or(by_length);
        if self.long {
            effort.max(Effort::Full)
        } else {
            effort
        }
    }

    fn compare_queries(&mut self, input: &Input, verdict: &Verdict, pool: &LentPool) {
        for (query, table) in queries(verdict, self.effort(input)) {
            self.take(input, query.compare(pool, table), || {
                format!("{query:?}, table of {table} words")
            });
        }
    }

    /// Counts a call of both sides and notes where they differ.
    fn take(&mut self, input: &Input, compared: Compared, call: impl FnOnce() -> String) {
        self.tallies.of(input.class).count_call(compared.number);
        if let Some(what) = compared.difference {
            self.note(input, &format!("{}: {what}", call()));
        }
    }

    fn compare_with_lister(&mut self, input: &Input) {
        self.tallies.of(input.class).listings += 1;
        let expected = second::list(&input.pool);
        match self.lister.output(&input.pool) {
            Ok(output) if output == expected.as_bytes() => {}
            Ok(output) => {
                let output = String::from_utf8_lossy(&output);
                self.note(input, &line_difference(&output, &expected));
            }
            Err(error) => self.note(input, &format!("lister: {error}")),
        }
    }

    /// Counts a difference; the first is shown and its pool kept.
    fn note(&mut self, input: &Input, what: &str) {
        self.differences += 1;
        if self.differences > 1 {
            return;
        }
        println!("first difference: {}, {}", input.class.name(), input.name);
        println!("  {what}");
        let start = &input.pool[..input.pool.len().min(64)];
        println!("  {} bytes: {}", input.pool.len(), hex(start));
        match dump(input, what) {
            Ok(()) => println!("  whole pool in {DUMP}"),
            Err(error) => println!("  {DUMP} was not written: {error}"),
        }
    }

    fn report(&self, others: &Others) -> bool {
        let Others {
            texts,
            sessions,
            parts,
        } = others;
        self.tallies.print();
        self.census.print();
        println!("texts: {} compared, {} sound", texts.compared, texts.sound);
        if let Some(text) = &texts.first {
            println!("first text that differs: {}", hex(text));
        }
        sessions.print();
        let parts: Vec<&part::Report> = [&self.fields].into_iter().chain(parts).collect();
        parts.iter().for_each(|part| part.print());
        let mut unseen = [
            self.tallies.unseen(),
            self.census.unseen(),
            sessions.unseen(),
        ]
        .concat();
        unseen.extend(parts.iter().flat_map(|part| part.unseen()));
        for what in &unseen {
            println!("compare: {what} was never seen");
        }
        let inputs = self.tallies.inputs()
            + texts.compared
            + sessions.lists
            + sessions.singles
            + parts.iter().map(|part| part.compared()).sum::<u64>();
        let differences = self.differences
            + texts.differences
            + sessions.differences
            + parts.iter().map(|part| part.differences()).sum::<u64>();
        println!("compare: {inputs} inputs, {differences} differences");
        differences == 0 && unseen.is_empty()
    }
}

fn is_counted(input: &Input, verdict: &Verdict) -> bool {
    !input.objects.is_empty()
        && input.pool.len() <= LONGEST_COUNTED
        && verdict.faults.len() <= MOST_COUNTED
}

/// Whether table and faults have the IDs and parents of the records that the
/// pool was written from, if these are known.
fn has_ids_of_objects(input: &Input, verdict: &Verdict) -> bool {
    if input.objects.len() != verdict.records.len() {
        return true;
    }
    let ids: Vec<(u16, u16)> = (input.objects.iter())
        .map(|object| (object.id, object.entry_parent()))
        .collect();
    let in_table = verdict.records.iter().map(|it| (it.id, it.parent));
    let in_faults = |fault: &Fault| match fault.record {
        0 => (fault.id, fault.parent) == (NO_REFERENCE, NO_REFERENCE),
        record => (fault.id, fault.parent) == ids[usize::from(record) - 1],
    };
    in_table.eq(ids.iter().copied()) && verdict.faults.iter().all(in_faults)
}

/// Shows the first line in which two outputs differ.
fn line_difference(output: &str, expected: &str) -> String {
    let pairs = output
        .split_inclusive('\n')
        .zip(expected.split_inclusive('\n'));
    let same = pairs
        .into_iter()
        .take_while(|(ours, theirs)| ours == theirs)
        .count();
    let line = |text: &str| text.split_inclusive('\n').nth(same).map(str::to_owned);
    let (ours, theirs) = (line(output), line(expected));
    format!("lister, line {}: {ours:?} against {theirs:?}", same + 1)
}

fn dump(input: &Input, what: &str) -> io::Result<()> {
    let mut text = format!("# {}, {}: {what}\n", input.class.name(), input.name);
    for row in input.pool.chunks(32) {
        text.push_str(&hex(row));
        text.push('\n');
    }
    let root = PathBuf::from(concat!(env!("CARGO_MANIFEST_DIR"), "/.."));
    fs::write(root.join(DUMP), text)
}

fn hex(bytes: &[u8]) -> String {
    let bytes: Vec<String> = bytes.iter().map(|byte| format!("{byte:02X}")).collect();
    bytes.join(" ")
}
