//! Which answers of which calls were seen, and at which points of a session.

use super::call::Call;
use super::client::Sides;
use super::library::{Step, Value};
use crate::library::ENTRY_WORDS;
use crate::shape::SHORTEST_RECORD;
use crate::subjects::Subjects;
use second::{Fault, Record, MAX_POOL_BYTES};

const BRANCHES_A_LINE: usize = 6;

const CALLS: [&str; 6] = [
    "offer",
    "transfer",
    "activate",
    "deactivate",
    "delete",
    "lost connection",
];

/// Answers that calls can give, by their causes. 6 can't occur, as a pool holds
/// at most 5,461 records. Nor can rule 3 as the first fault: the second device
/// breaches rule 1 or 2 as well, or the first one rule 1.
const OFFER: &[&str] = &[
    "0 at stage none",
    "0 in place of an offer",
    "20 for size 0",
    "20 for a size over 65,535",
    "26 by staging",
    "26 by the kept area",
    "26 by both",
];
const TRANSFER: &[&str] = &[
    "0 for the whole pool",
    "0 for a first piece",
    "0 for a piece between",
    "0 for the last piece",
    "21",
    "22 for an empty piece",
    "22 for a piece too long",
    "22 for a piece when all is there",
    "26",
];
const ACTIVATE: &[&str] = &[
    "0 of the kept pool",
    "0 of the active pool",
    "0 of a first pool",
    "0 in place of a shorter pool",
    "0 in place of one as long",
    "0 in place of a longer pool",
    "3",
    "4",
    "5",
    "7 with no entry",
    "7 with some",
    "21",
    "23 with nothing there",
    "23",
    "26 by the kept pool",
    "26 by staging",
    "26 by the kept area",
    "26 by both",
    RULES[1],
    RULES[2],
    RULES[4],
    RULES[5],
    RULES[6],
    RULES[7],
    RULES[8],
    RULES[9],
    RULES[10],
    RULES[11],
    RULES[12],
];
/// First faults by their rules, which are numbered from 1.
const RULES: [&str; 13] = [
    "24 without a rule",
    "24 rule 1",
    "24 rule 2",
    "24 rule 3",
    "24 rule 4",
    "24 rule 5",
    "24 rule 6",
    "24 rule 7",
    "24 rule 8",
    "24 rule 9",
    "24 rule 10",
    "24 rule 11",
    "24 rule 12",
];
const DEACTIVATE: &[&str] = &["0", "25"];
const OTHERS: &[&str] = &["0"];
/// Why a value can't arise; every call gives 27.
const CAUSES: [&str; 10] = [
    "27 stage over 1",
    "27 active over 1",
    "27 announced over 65,535",
    "27 kept over 65,535",
    "27 announced 0 while offered",
    "27 received over announced",
    "27 active with nothing kept",
    "27 announced at stage none",
    "27 received at stage none",
    "27 for some of these",
];
const SOME_CAUSES: usize = CAUSES.len() - 1;

/// Points of a session: how far an offer is, and what is kept.
const OFFERS: [&str; 4] = ["none", "offered", "in part", "all there"];
const KEEPINGS: [&str; 3] = ["nothing kept", "kept", "active"];
const POINTS: usize = OFFERS.len() * KEEPINGS.len();

pub struct Tally {
    /// By call and branch.
    branches: [Vec<(&'static str, u64)>; CALLS.len()],
    /// By call and point, for calls of lists.
    points: [[u64; POINTS]; CALLS.len()],
    /// Faults that activating was refused with.
    first_faults: Subjects,
}

impl Tally {
    pub fn new() -> Self {
        let due = [OFFER, TRANSFER, ACTIVATE, DEACTIVATE, OTHERS, OTHERS];
        Tally {
            branches: due.map(|own| own.iter().chain(&CAUSES).map(|&it| (it, 0)).collect()),
            points: [[0; POINTS]; CALLS.len()],
            first_faults: Subjects::of_first("first faults"),
        }
    }

    /// Counts what the call gave on this value with these areas. An answer that
    /// the call can't give is an error, even if the sides agree on it.
    pub fn count(
        &mut self,
        value: &Value,
        call: &Call,
        sides: &Sides,
        step: &Step,
    ) -> Result<(), String> {
        self.count_fault(value, sides, step)?;
        let name = branch(value, call, sides, step);
        let mut branches = self.branches[index(call)].iter_mut();
        match branches.find(|(it, _)| *it == name) {
            Some((_, count)) => {
                *count += 1;
                Ok(())
            }
            None => Err(format!("{name} can't be given: {step:?}")),
        }
    }

    /// Counts the fault of an answer. One that has none has zeros in its place.
    fn count_fault(&mut self, value: &Value, sides: &Sides, step: &Step) -> Result<(), String> {
        let rule = u8::try_from(step.rule).map_err(|_| format!("{step:?} of no rule"))?;
        let fault = Fault {
            record: step.record,
            rule,
            item: step.item,
            id: step.id,
            parent: step.parent,
        };
        match step.number {
            24 => {
                let pool = &sides.staging()[..value.announced as usize];
                self.first_faults.count(&fault, &records(pool))
            }
            _ if fault == Fault::default() => Ok(()),
            _ => Err(format!("an answer without a fault is {step:?}")),
        }
    }

    /// Counts at which point of a list the call came.
    pub fn count_point(&mut self, value: &Value, call: &Call) {
        let offer = match (value.stage, value.received) {
            (0, _) => 0,
            (_, 0) => 1,
            (_, received) if received < value.announced => 2,
            _ => 3,
        };
        let keeping = usize::from(value.kept > 0) + usize::from(value.active);
        self.points[index(call)][offer * KEEPINGS.len() + keeping] += 1;
    }

    /// Prints all counts.
    pub fn print(&self) {
        println!("session calls of all lists, by offer and what is kept");
        print!("{:<16}", "");
        for point in 0..POINTS {
            print!("{:>10}", OFFERS[point / KEEPINGS.len()]);
        }
        print!("\n{:<16}", "");
        for point in 0..POINTS {
            let keeping = KEEPINGS[point % KEEPINGS.len()];
            print!("{:>10}", keeping.trim_end_matches(" kept"));
        }
        println!();
        for (name, counts) in CALLS.iter().zip(self.points) {
            print!("{name:<16}");
            counts.iter().for_each(|count| print!("{count:>10}"));
            println!();
        }
        println!("answers of session calls, and what led to them");
        for (name, branches) in CALLS.iter().zip(&self.branches) {
            let mut head = *name;
            for line in branches.chunks(BRANCHES_A_LINE) {
                let counts: Vec<String> = line
                    .iter()
                    .map(|(branch, count)| format!("{branch}: {count}"))
                    .collect();
                println!("{head:<16}{}", counts.join("; "));
                head = "";
            }
        }
        self.first_faults.print();
    }

    /// What should have occurred and did not.
    pub fn unseen(&self) -> Vec<String> {
        let mut names = Vec::new();
        for (call, name) in CALLS.iter().enumerate() {
            let unseen = self.branches[call].iter().filter(|(_, count)| *count == 0);
            names.extend(unseen.map(|(branch, _)| format!("{name} that gives {branch}")));
            for (point, _) in (self.points[call].iter().enumerate()).filter(|(_, &it)| it == 0) {
                let offer = OFFERS[point / KEEPINGS.len()];
                let keeping = KEEPINGS[point % KEEPINGS.len()];
                names.push(format!("{name} at stage {offer}, {keeping}"));
            }
        }
        names.extend(self.first_faults.unseen());
        names
    }
}

fn index(call: &Call) -> usize {
    match call {
        Call::Offer(_) => 0,
        Call::Transfer(_) => 1,
        Call::Activate(_) => 2,
        Call::Deactivate => 3,
        Call::Delete => 4,
        Call::Lost => 5,
    }
}

/// The cause of the answer, found independently of both sides as far as is
/// needed to tell causes of the same number apart.
fn branch(value: &Value, call: &Call, sides: &Sides, step: &Step) -> &'static str {
    let (staging, kept) = (sides.staging().len(), sides.kept().len());
    match (step.number, call) {
        (27, _) => cause(value),
        (0, Call::Offer(_)) => OFFER[usize::from(value.stage)],
        (20, Call::Offer(0)) => "20 for size 0",
        (20, Call::Offer(_)) => "20 for a size over 65,535",
        (26, Call::Offer(size)) => short_area(*size, staging, kept),
        (0, Call::Transfer(piece)) => {
            let received = value.received as usize + piece.len();
            match (value.received, received == value.announced as usize) {
                (0, true) => "0 for the whole pool",
                (0, false) => "0 for a first piece",
                (_, false) => "0 for a piece between",
                (_, true) => "0 for the last piece",
            }
        }
        (22, Call::Transfer(piece)) if piece.is_empty() => "22 for an empty piece",
        (22, Call::Transfer(_)) if value.received == value.announced => {
            "22 for a piece when all is there"
        }
        (22, Call::Transfer(_)) => "22 for a piece too long",
        (0, Call::Activate(_)) => activated(value),
        (7, Call::Activate(words)) if *words < ENTRY_WORDS => "7 with no entry",
        (7, Call::Activate(_)) => "7 with some",
        (23, Call::Activate(_)) if value.received == 0 => "23 with nothing there",
        (24, Call::Activate(_)) => RULES.get(usize::from(step.rule)).unwrap_or(&RULES[0]),
        (26, Call::Activate(_)) if value.stage == 0 => "26 by the kept pool",
        (26, Call::Activate(_)) => short_area(value.announced as usize, staging, kept),
        (0, _) => "0",
        (3, _) => "3",
        (4, _) => "4",
        (5, _) => "5",
        (21, _) => "21",
        (23, _) => "23",
        (25, _) => "25",
        (26, _) => "26",
        _ => "a number of no call",
    }
}

/// The records of a pool that is read.
fn records(pool: &[u8]) -> Vec<Record> {
    let mut table = vec![Record::default(); pool.len() / SHORTEST_RECORD];
    let count = second::read_pool(pool, &mut table).unwrap_or(0);
    table.truncate(count);
    table
}

fn short_area(size: usize, staging: usize, kept: usize) -> &'static str {
    match (staging < size, kept < size) {
        (true, true) => "26 by both",
        (true, false) => "26 by staging",
        _ => "26 by the kept area",
    }
}

fn activated(value: &Value) -> &'static str {
    match (value.stage, value.active, value.kept) {
        (0, 0, _) => "0 of the kept pool",
        (0, _, _) => "0 of the active pool",
        (_, _, 0) => "0 of a first pool",
        (_, _, kept) if kept < value.announced => "0 in place of a shorter pool",
        (_, _, kept) if kept == value.announced => "0 in place of one as long",
        _ => "0 in place of a longer pool",
    }
}

fn cause(value: &Value) -> &'static str {
    let none = value.stage == 0;
    let offered = value.stage == 1;
    let holding = [
        value.stage > 1,
        value.active > 1,
        value.announced as usize > MAX_POOL_BYTES,
        value.kept as usize > MAX_POOL_BYTES,
        offered && value.announced == 0,
        offered && value.received > value.announced,
        value.active == 1 && value.kept == 0,
        none && value.announced != 0,
        none && value.received != 0,
    ];
    let mut causes = CAUSES.iter().zip(holding).filter(|(_, holds)| *holds);
    match (causes.next(), causes.next()) {
        (Some((cause, _)), None) => cause,
        (Some(_), Some(_)) => CAUSES[SOME_CAUSES],
        _ => "27 without a cause",
    }
}
