//! Compares the proved library and lister with the second implementation.

#![forbid(unsafe_code)]

use compare::bench;
use compare::run::{self, Options};
use std::env;
use std::path::PathBuf;
use std::process::ExitCode;
use std::str::FromStr;

const USAGE: &str = "usage: compare run --lister PATH [--seed N] [--pools N] [--lists N] [--long]
       compare bench [--plot FILE]";

fn main() -> ExitCode {
    let mut arguments = env::args().skip(1);
    let outcome = match arguments.next().as_deref() {
        Some("run") => run(arguments),
        Some("bench") => bench(arguments),
        _ => Err(USAGE.to_owned()),
    };
    match outcome {
        Ok(true) => ExitCode::SUCCESS,
        Ok(false) => ExitCode::FAILURE,
        Err(message) => {
            eprintln!("{message}");
            ExitCode::from(2)
        }
    }
}

fn run(arguments: impl Iterator<Item = String>) -> Result<bool, String> {
    let mut options = parse(arguments)?;
    // An absolute path: a bare name would be searched for elsewhere.
    options.lister = options
        .lister
        .canonicalize()
        .map_err(|error| format!("no lister at {}: {error}", options.lister.display()))?;
    run::run(options).map_err(|error| format!("compare: {error}"))
}

fn bench(mut arguments: impl Iterator<Item = String>) -> Result<bool, String> {
    let plot = match (arguments.next().as_deref(), arguments.next()) {
        (None, _) => None,
        (Some("--plot"), Some(file)) => Some(PathBuf::from(file)),
        _ => return Err(USAGE.to_owned()),
    };
    if arguments.next().is_some() {
        return Err(USAGE.to_owned());
    }
    bench::bench(plot.as_deref()).map_err(|error| format!("compare: {error}"))
}

fn parse(mut arguments: impl Iterator<Item = String>) -> Result<Options, String> {
    let (mut lister, mut seed, mut pools, mut lists, mut long) = (None, 1, None, None, false);
    while let Some(argument) = arguments.next() {
        match argument.as_str() {
            "--lister" => lister = Some(value(arguments.next())?),
            "--seed" => seed = value(arguments.next())?,
            "--pools" => pools = Some(value(arguments.next())?),
            "--lists" => lists = Some(value(arguments.next())?),
            "--long" => long = true,
            _ => return Err(USAGE.to_owned()),
        }
    }
    let (usual_pools, listed, usual_lists) = if long {
        (1_000_000, 50_000, 1_000_000)
    } else {
        (50_000, 3_000, 60_000)
    };
    Ok(Options {
        lister: lister.ok_or(USAGE)?,
        seed,
        pools: pools.unwrap_or(usual_pools),
        listed,
        lists: lists.unwrap_or(usual_lists),
        long,
    })
}

fn value<T: FromStr>(argument: Option<String>) -> Result<T, String> {
    argument
        .and_then(|text| text.parse().ok())
        .ok_or_else(|| USAGE.to_owned())
}
