//! Texts and labels of a sound pool, and commands judged by it.

use super::case::{Case, Work};
use super::table::{grouped, Group, Row, Unit};
use super::times::Rounds;
use crate::exchange::Order;
use crate::objects::Object;
use crate::queries::Query;
use crate::realistic::realistic;
use second::{Kind, MAX_POOL_BYTES};

const SIZE: usize = 8_000;
/// How many data fit, of 12 bytes each and an entry of 2, besides 44 bytes.
const LISTED: u16 = ((MAX_POOL_BYTES - 44) / 14) as u16;
const ROUNDS: usize = 201;
/// Microseconds of a round: long compared with the clock's resolution.
const ROUND: f64 = 250.0;

/// Texts and labels.
pub fn bench_queries() -> Result<Group, String> {
    let objects = realistic(SIZE);
    let last = u32::from(objects[objects.len() - 1].id);
    let queries = [
        ("text of the device", Query::Text(0)),
        ("text of the last record", Query::Text(last)),
        ("text of no record", Query::Text(last + 1)),
        ("labels", Query::Labels),
    ];
    let queries = queries.map(|(name, query)| (name, Work::Query(query)));
    bench_all("queries", "query of a sound pool", &objects, &queries)
}

pub fn bench_judging() -> Result<Group, String> {
    let objects = realistic(SIZE);
    let mut elements = objects.iter().filter(|it| it.kind == Kind::Det);
    let last_element = elements.next_back().map_or(0, |it| it.number.into());
    let judged = [
        ("command 1", judge(1, 0, 0)),
        ("command 4, first element", judge(4, 0, 0)),
        ("command 4, last element", judge(4, last_element, 0)),
        ("command 4, no element", judge(4, last_element + 1, 0)),
    ];
    bench_all(
        "judging",
        "command judged by a sound pool",
        &objects,
        &judged,
    )
}

/// Commands judged by a pool whose only list names all data.
pub fn bench_one_list() -> Result<Group, String> {
    let judged = [
        ("command 1", judge(1, 0, 0)),
        ("command 4, first DDI of the list", judge(4, 0, 0)),
        ("command 4, last DDI of the list", judge(4, 0, LISTED - 1)),
        ("command 4, no DDI of the list", judge(4, 0, LISTED)),
    ];
    let of = "command judged by a sound pool";
    bench_all("judging, one list", of, &one_list(), &judged)
}

fn judge(command: u32, element: u32, ddi: u16) -> Work {
    Work::Judge(Order {
        command,
        element,
        ddi,
        value: 1_000,
    })
}

/// A sound pool whose only list is as long as possible.
fn one_list() -> Vec<Object> {
    let mut element = Object::root_element(1);
    element.entries = (0..LISTED).map(|ddi| ddi + 2).collect();
    let mut objects = vec![Object::plain(Kind::Dvc, 0), element];
    for ddi in 0..LISTED {
        let mut data = Object::plain(Kind::Dpd, ddi + 2);
        data.ddi = ddi;
        data.triggers = 1;
        objects.push(data);
    }
    objects
}

fn bench_all(
    name: &'static str,
    of: &str,
    objects: &[Object],
    works: &[(&str, Work)],
) -> Result<Group, String> {
    let mut case = Case::new(objects);
    let mut rows = Vec::new();
    for &(name, work) in works {
        case.compare(work)?;
        let rounds = Rounds::take(ROUNDS, ROUND, |side, calls| case.time(side, work, calls));
        rows.push(Row::new(name, rounds.pair()));
    }
    Ok(Group {
        name,
        of: format!("{of} of {} bytes", grouped(case.pool.len())),
        unit: Unit::Microseconds,
        beside: "",
        rows,
    })
}
