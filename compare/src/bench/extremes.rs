//! Checks of the longest pools that are hard on a checker.

use super::case::{Case, Work};
use super::table::{grouped, Group, Row, Unit};
use super::times::{calls_in, Rounds, Side};
use crate::extremes::extremes;
use crate::realistic::realistic;
use second::MAX_POOL_BYTES;

/// Microseconds that the library may take for one pool in all rounds together.
const BUDGET: f64 = 2e6;
const FEWEST_ROUNDS: usize = 11;
const MOST_ROUNDS: usize = 121;
/// Microseconds of a round: long compared with the clock's resolution.
const ROUND: f64 = 500.0;
/// Pools that are also checked with a buffer for all of their faults.
const ALL_WRITTEN: [&str; 2] = ["entries name nothing", "most faults"];

/// Next to the times is the ratio of the library's time to its own for a sound
/// pool of the same size: the worst that an implement can do to a terminal.
pub fn bench() -> Result<Group, String> {
    let pools = extremes(MAX_POOL_BYTES);
    for name in ALL_WRITTEN {
        if !pools.iter().any(|it| it.name == name) {
            return Err(format!("there is no pool \"{name}\""));
        }
    }
    let mut rows = Vec::new();
    for extreme in pools {
        let case = Case::new(&extreme.objects);
        case.compare(Work::Check)?;
        rows.push(bench_case(extreme.name, case));
        if ALL_WRITTEN.contains(&extreme.name) {
            let case = Case::new(&extreme.objects).with_room_for_all();
            rows.push(bench_case("all of them written", case));
        }
    }
    Ok(Group {
        name: "hostile",
        of: "check of a pool of about 65 KB".into(),
        unit: Unit::Microseconds,
        beside: "against sound",
        rows,
    })
}

fn bench_case(name: &str, mut case: Case) -> Row {
    let mut sound = Case::new(&realistic(case.pool.len()));
    let calls = calls_in(ROUND, || case.time(Side::Library, Work::Check, 1));
    let once = case.time(Side::Library, Work::Check, calls);
    let fitting = (BUDGET / (once * calls as f64)) as usize;
    let (mut rounds, mut sounds) = (Rounds::default(), Vec::new());
    for _ in 0..fitting.clamp(FEWEST_ROUNDS, MOST_ROUNDS) {
        rounds.push(|side| case.time(side, Work::Check, calls));
        sounds.push(sound.time(Side::Library, Work::Check, calls));
    }
    let faults = grouped(case.faults());
    Row {
        name: format!("{name}, {faults} faults"),
        pair: rounds.pair(),
        beside: Some(rounds.library_against(&sounds)),
    }
}
