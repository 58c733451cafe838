//! Commands judged by both sides, with pools of all kinds.

use super::library::{Judgement, Order};
use crate::accepted;
use crate::calls::{by_library, by_second, compare as compare_calls};
use crate::fixed::pool_q;
use crate::generated;
use crate::grid::Grid;
use crate::lent::LentPool;
use crate::library::ENTRY_WORDS;
use crate::objects::{named, pool_of, Object, GREATEST_NUMBER};
use crate::part::Part;
use crate::random::Random;
use crate::realistic::realistic;
use crate::sessions::longest;
use crate::verdict::Verdict;
use second::Kind;

/// The commands that are judged; each has a row.
const COMMANDS: [u32; 21] = [
    0,
    1,
    2,
    3,
    4,
    5,
    6,
    7,
    8,
    9,
    10,
    11,
    12,
    13,
    14,
    15,
    16,
    255,
    259,
    65_540,
    0x8000_0003,
];
const VALUES: [i32; 6] = [i32::MIN, -1, 0, 1, 1_000, i32::MAX];
/// Numbers that no element has, although some would fit without upper bits.
const HIGH_NUMBERS: [u32; 9] = [
    4_096,
    4_097,
    8_191,
    32_768,
    65_535,
    65_536,
    65_554,
    1 << 31,
    u32::MAX,
];
/// How many orders are given for an accepted seeded pool, for other pools, and
/// for the large fixed ones.
const ORDERS: usize = 24;
const FEW_ORDERS: usize = 4;
const MANY_ORDERS: usize = 400;
/// Bytes of a realistic pool.
const REALISTIC: usize = 8_000;
/// Most seeded pools that are longer are left out.
const LONG_POOL: usize = 4_000;
const LONG_ONE_IN: usize = 10;

/// The grids, by their place in the part.
const ERRORS: usize = 0;
const REFUSALS: usize = 1;

const ERROR_COLUMNS: &[&str] = &[
    "01",
    "02",
    "04 elsewhere",
    "04 nowhere",
    "10 DPD",
    "10 DPT",
    "08 DPD",
    "08 DPT",
    "20",
    "0 DPD",
    "0 DPT",
];
const POOLS: [&str; 3] = ["accepted", "faulty", "not read"];
const REFUSAL_COLUMNS: &[&str] = &[
    "answered",
    "1",
    "2",
    "3",
    "4",
    "5",
    "7",
    "24",
    "32",
    "32 before 7",
];

/// Fixed pools, every property and trigger, and seeded pools, accepted and not.
pub fn compare(seed: u64, pools: u64) -> Part {
    let mut part = Part::new("judged commands", grids());
    compare_known(&mut part);
    every_bit(&mut part);
    for objects in [realistic(REALISTIC), longest()] {
        let random = &mut Random::new(seed);
        give_orders(
            &mut part,
            random,
            &Subject::of_objects(objects),
            MANY_ORDERS,
        );
    }
    for pool in [vec![], vec![0; second::MAX_POOL_BYTES + 1]] {
        let random = &mut Random::new(seed);
        give_orders(&mut part, random, &Subject::of_bytes(pool), FEW_ORDERS);
    }
    for index in 0..pools {
        let random = &mut Random::for_item(seed ^ 0x10D6, index);
        let subject = Subject::of_objects(accepted::objects(random));
        if subject.pool.len() <= LONG_POOL || random.one_in(LONG_ONE_IN) {
            give_orders(&mut part, random, &subject, ORDERS);
        }
        let other = generated::input(seed ^ 0x10D6, index);
        if other.pool.len() <= LONG_POOL || random.one_in(LONG_ONE_IN) {
            let subject = Subject {
                objects: other.objects,
                ..Subject::of_bytes(other.pool)
            };
            give_orders(&mut part, random, &subject, FEW_ORDERS);
        }
    }
    part
}

fn grids() -> Vec<Grid> {
    let rows = COMMANDS.map(|command| format!("command {command}"));
    let errors = Grid::new("judged", rows, ERROR_COLUMNS, |row, column| {
        let columns: &[&str] = match COMMANDS[row] {
            2 => &["0 DPD", "0 DPT"],
            3 | 10 => &["10 DPD", "10 DPT", "0 DPD"],
            4 | 5 => &["08 DPD", "08 DPT", "20", "0 DPD"],
            6..=8 => &["08 DPD", "08 DPT", "0 DPD"],
            _ => return column == "01",
        };
        column.starts_with("02") || column.starts_with("04") || columns.contains(&column)
    });
    let refusals = Grid::new(
        "judged, by pool",
        POOLS,
        REFUSAL_COLUMNS,
        |row, column| match (POOLS[row], column) {
            (_, "32") => true,
            ("not read", column) => ["1", "2", "3", "4", "5"].contains(&column),
            (_, "7" | "32 before 7") => true,
            ("faulty", column) => column == "24",
            (_, column) => column == "answered",
        },
    );
    vec![errors, refusals]
}

/// A pool with the records that it was written from, if they are known.
struct Subject {
    pool: Vec<u8>,
    objects: Vec<Object>,
    verdict: Verdict,
}

impl Subject {
    fn of_bytes(pool: Vec<u8>) -> Self {
        Subject {
            verdict: Verdict::of(&pool),
            pool,
            objects: Vec::new(),
        }
    }

    fn of_objects(objects: Vec<Object>) -> Self {
        Subject {
            objects: objects.clone(),
            ..Subject::of_bytes(pool_of(&objects))
        }
    }

    /// The row among the pools.
    fn row(&self) -> usize {
        match (self.verdict.is_accepted(), self.verdict.is_refused()) {
            (true, _) => 0,
            (_, false) => 1,
            _ => 2,
        }
    }

    /// Words of a table for all records that the pool has or could have.
    fn words(&self) -> usize {
        if self.verdict.is_refused() {
            ENTRY_WORDS * self.verdict.most_entries
        } else {
            self.verdict.needed()
        }
    }

    fn elements(&self) -> impl Iterator<Item = &Object> {
        self.objects.iter().filter(|it| it.kind == Kind::Det)
    }

    /// What the list of the element with this number names.
    fn data(&self, number: u32) -> Vec<&Object> {
        let element = self.elements().find(|it| u32::from(it.number) == number);
        let entries = element.map_or(&[][..], |it| &it.entries);
        let named = entries.iter().filter_map(|&id| named(&self.objects, id));
        named.map(|index| &self.objects[index]).collect()
    }
}

/// Commands judged by Q whose error bytes are known beforehand.
fn compare_known(part: &mut Part) {
    let pool = pool_q();
    let words = Verdict::of(&pool).needed();
    for (command, error) in [(3, 0x10), (4, 0), (5, 0x08)] {
        let order = Order {
            command,
            element: 1,
            ddi: 141,
            value: 1_000,
        };
        match judge_by_both(&pool, words, order) {
            Ok(judged) if (judged.number, judged.error) == (0, error) => {}
            judged => part.note(&format!("{judged:?} where {error} is known"), || {
                format!("{order:?} over Q")
            }),
        }
    }
}

/// Each allowed set of properties and triggers, with all commands.
fn every_bit(part: &mut Part) {
    for properties in 0..6 {
        for triggers in 0..32 {
            let subject = subject_with(properties, triggers);
            let words = subject.words();
            for command in COMMANDS {
                for value in VALUES {
                    for (element, ddi) in [(7, 141), (7, 134), (7, 9), (7, 300), (0, 141)] {
                        let order = Order {
                            command,
                            element,
                            ddi,
                            value,
                        };
                        give(part, &subject, words, order);
                    }
                }
                for element in [6, 8, 4_095, 4_096, 4_096 + 7, 65_536 + 7, (1 << 31) + 7] {
                    let order = Order {
                        command,
                        element,
                        ddi: 141,
                        value: 0,
                    };
                    give(part, &subject, words, order);
                }
            }
        }
    }
}

/// Element 7 has DDI 141 as process data and 134 as a property; DDI 9 is in
/// another list, and DDI 300 in none.
fn subject_with(properties: u8, triggers: u8) -> Subject {
    let mut element = Object::plain(Kind::Det, 2);
    element.number = 7;
    element.parent = 1;
    element.entries = vec![30, 20];
    let mut other = Object::root_element(1);
    other.entries = vec![21];
    let data = |kind: Kind, id: u16, ddi: u16| {
        let mut data = Object::plain(kind, id);
        data.ddi = ddi;
        data.properties = properties;
        data.triggers = triggers;
        data
    };
    Subject::of_objects(vec![
        Object::plain(Kind::Dvc, 0),
        other,
        element,
        data(Kind::Dpd, 20, 141),
        data(Kind::Dpd, 21, 9),
        data(Kind::Dpt, 30, 134),
    ])
}

fn give_orders(part: &mut Part, random: &mut Random, subject: &Subject, count: usize) {
    let numbers: Vec<u16> = subject.elements().map(|it| it.number).collect();
    let ddis: Vec<u16> = (subject.objects.iter())
        .filter(|it| it.is_data())
        .map(|it| it.ddi)
        .collect();
    for _ in 0..count {
        let element = draw_element(random, &numbers);
        let order = Order {
            command: draw_command(random),
            element,
            ddi: draw_ddi(random, subject, element, &ddis),
            value: draw_value(random),
        };
        let needed = subject.words();
        let words = match random.below(12) {
            0 => needed.saturating_sub(1),
            1 => random.pick(&[0, 1, ENTRY_WORDS]),
            2 => needed + random.between(1, 3 * ENTRY_WORDS),
            _ => needed,
        };
        give(part, subject, words, order);
    }
}

/// Mostly one that carries a value.
fn draw_command(random: &mut Random) -> u32 {
    let any = random.pick(&COMMANDS);
    let valued = random.pick(&[2, 3, 4, 5, 6, 7, 8, 10]);
    random.pick(&[any, valued, valued])
}

fn draw_value(random: &mut Random) -> i32 {
    let any = random.draw() as i32;
    let edge = random.pick(&VALUES);
    random.pick(&[any, edge])
}

/// Mostly the number of an element.
fn draw_element(random: &mut Random, numbers: &[u16]) -> u32 {
    let greatest = u32::from(GREATEST_NUMBER);
    let any = random.between(0, greatest as usize) as u32;
    let known = match numbers {
        [] => any,
        _ => u32::from(random.pick(numbers) & GREATEST_NUMBER),
    };
    match random.below(12) {
        0 => any,
        1 => random.pick(&[0, greatest, known ^ 1]),
        2 => random.pick(&HIGH_NUMBERS),
        3 => known | 1 << random.between(12, 31),
        _ => known,
    }
}

/// Mostly a DDI of the element's list.
fn draw_ddi(random: &mut Random, subject: &Subject, element: u32, ddis: &[u16]) -> u16 {
    let any = random.draw() as u16;
    let own = subject.data(element);
    let elsewhere = if ddis.is_empty() {
        any
    } else {
        random.pick(ddis)
    };
    let known = if own.is_empty() {
        elsewhere
    } else {
        random.pick(&own).ddi
    };
    match random.below(10) {
        0 => any,
        1 => random.pick(&[known ^ 1, known ^ 256]),
        2 | 3 => elsewhere,
        _ => known,
    }
}

/// Has both sides judge the order, with a table of `words` words.
fn give(part: &mut Part, subject: &Subject, words: usize, order: Order) {
    let input = || {
        let bytes = subject.pool.iter().map(|byte| format!("{byte:02X}"));
        let bytes: String = bytes.take(LONG_POOL).collect();
        format!("{order:?}, table of {words} words, pool {bytes}")
    };
    let judged = judge_by_both(&subject.pool, words, order);
    let column = judged
        .clone()
        .map(|judged| refusal(subject, words, &judged));
    let is_answered = matches!(column, Ok("answered"));
    part.take(REFUSALS, subject.row(), column, input);
    let row = COMMANDS.iter().position(|it| *it == order.command);
    let is_known = is_answered && !subject.objects.is_empty();
    if let (true, Ok(judged), Some(row)) = (is_known, judged, row) {
        part.count(ERRORS, row, error(subject, order, judged.error), input);
    }
}

/// The judgement with a table of `words` words, if both sides agree on it and
/// on all memory that they were lent.
pub fn judge_by_both(pool: &[u8], words: usize, order: Order) -> Result<Judgement, String> {
    let pool = &LentPool::new(pool);
    let second = by_second(words, |table| order.judge_by_second(pool.bytes(), table));
    let library = by_library(words, |table| order.judge_by_library(pool.bytes(), table));
    let mut judged = None;
    let compared = compare_calls(pool, library, second, |answer| {
        judged = Some(*answer);
        answer.number
    });
    match (compared.difference, judged) {
        (None, Some(judged)) => Ok(judged),
        (difference, _) => Err(difference.unwrap_or_default()),
    }
}

fn refusal(subject: &Subject, words: usize, judged: &Judgement) -> &'static str {
    let short = !subject.verdict.is_refused() && words < subject.verdict.needed();
    match judged.number {
        0 => "answered",
        32 if short => "32 before 7",
        number => {
            let number = number.to_string();
            let column = REFUSAL_COLUMNS.iter().find(|it| **it == number);
            column.unwrap_or(&"another number")
        }
    }
}

/// The column of an error byte, by what the pool's records say about the
/// order's element and DDI.
fn error(subject: &Subject, order: Order, error: u8) -> &'static str {
    let data = subject.data(order.element);
    let kind = data.iter().find(|it| it.ddi == order.ddi).map(|it| it.kind);
    let has_element = subject
        .elements()
        .any(|it| u32::from(it.number) == order.element);
    let has_ddi = |it: &Object| it.is_data() && it.ddi == order.ddi;
    let elsewhere = subject.objects.iter().any(has_ddi);
    match (error, kind) {
        (0x01, _) => "01",
        (0x02, None) if !has_element => "02",
        (0x04, None) if has_element && elsewhere => "04 elsewhere",
        (0x04, None) if has_element => "04 nowhere",
        (0x10, Some(Kind::Dpd)) => "10 DPD",
        (0x10, Some(Kind::Dpt)) => "10 DPT",
        (0x08, Some(Kind::Dpd)) => "08 DPD",
        (0x08, Some(Kind::Dpt)) => "08 DPT",
        (0x20, Some(Kind::Dpd)) if order.value < 0 => "20",
        (0, Some(Kind::Dpd)) => "0 DPD",
        (0, Some(Kind::Dpt)) => "0 DPT",
        _ => "another error",
    }
}
