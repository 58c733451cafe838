//! Times the library against the second implementation.

mod case;
mod exchange;
mod extremes;
mod items;
mod logs;
mod plot;
mod queries;
mod sessions;
mod sound;
mod table;
mod texts;
mod times;

use case::Work;
use sound::Growth;
use std::fs;
use std::hint::black_box;
use std::path::Path;
use std::time::Instant;
use table::Group;

/// What a run has measured.
struct Report {
    groups: Vec<Group>,
    growths: Vec<Growth>,
}

/// Prints the table, draws it into this file, and tells whether both sides gave
/// the same results: work on which they differ is not timed.
pub fn bench(plot: Option<&Path>) -> Result<bool, String> {
    let start = Instant::now();
    let Report { groups, growths } = match measure() {
        Ok(report) => report,
        Err(difference) => {
            println!("bench: the sides do not agree about {difference}");
            return Ok(false);
        }
    };
    sound::print_growth(&growths);
    table::print_slower(&groups);
    println!("\nmeasured in {} s", start.elapsed().as_secs());
    if let Some(file) = plot {
        let drawn = fs::write(file, plot::draw(&groups, &growths));
        drawn.map_err(|error| format!("{}: {error}", file.display()))?;
    }
    Ok(true)
}

/// Prints each group of the table as soon as it is measured.
fn measure() -> Result<Report, String> {
    let mut groups = Vec::new();
    let mut add = |group: Group| {
        group.print();
        groups.push(group);
    };
    table::print_head();
    let reading = Growth::of("reading", Work::Read, 401)?;
    add(reading.group());
    let checking = Growth::of("checking", Work::Check, 121)?;
    add(checking.group());
    add(extremes::bench()?);
    add(texts::bench()?);
    add(queries::bench_queries()?);
    add(queries::bench_judging()?);
    add(queries::bench_one_list()?);
    add(sessions::bench()?);
    add(exchange::bench()?);
    add(logs::bench_records()?);
    add(logs::bench_logs()?);
    Ok(Report {
        groups,
        growths: vec![reading, checking],
    })
}

/// Makes the compiler compute an answer although it is not used.
pub fn keep<Answer>(answer: Answer) {
    let _ = black_box(answer);
}
