//! Makes the calls of kept inputs without a fuzzer, and turns inputs from a
//! text file into a folder and back.

use fuzz::{corpus, seeds, Group, GROUPS};
use std::env;
use std::fs;
use std::io;
use std::path::Path;
use std::process::ExitCode;

const USAGE: &str = "\
usage: fuzz-corpus replay [PATH...]   make the calls of these inputs, or of the kept ones and the seeds
       fuzz-corpus seeds FOLDER       write the seeds as files
       fuzz-corpus unpack FOLDER      write the kept inputs and the seeds as files
       fuzz-corpus pack FOLDER        print a folder's inputs as lines, shortest first";

fn main() -> ExitCode {
    let arguments: Vec<String> = env::args().skip(1).collect();
    let arguments: Vec<&str> = arguments.iter().map(String::as_str).collect();
    let outcome = match arguments[..] {
        ["replay"] => kept_and_seeds().map(|inputs| replay(&inputs) && has_all_groups(&inputs)),
        ["replay", ref paths @ ..] => load(paths).map(|inputs| replay(&inputs)),
        ["seeds", folder] => seeds::seeds().and_then(|it| write(Path::new(folder), &it)),
        ["unpack", folder] => kept_and_seeds().and_then(|it| write(Path::new(folder), &it)),
        ["pack", folder] => pack(Path::new(folder)),
        _ => {
            eprintln!("{USAGE}");
            return ExitCode::from(2);
        }
    };
    match outcome {
        Ok(true) => ExitCode::SUCCESS,
        Ok(false) => ExitCode::FAILURE,
        Err(error) => {
            eprintln!("fuzz-corpus: {error}");
            ExitCode::from(2)
        }
    }
}

fn kept_and_seeds() -> io::Result<Vec<Vec<u8>>> {
    let mut inputs = corpus::load(Path::new(corpus::KEPT))?;
    inputs.extend(seeds::seeds()?);
    Ok(inputs)
}

fn load(paths: &[&str]) -> io::Result<Vec<Vec<u8>>> {
    let mut inputs = Vec::new();
    for path in paths {
        inputs.extend(corpus::load(Path::new(path))?);
    }
    Ok(inputs)
}

/// Makes all calls and tells whether the sides agreed.
fn replay(inputs: &[Vec<u8>]) -> bool {
    let mut differences = 0;
    for input in inputs {
        if let Err(what) = fuzz::compare(input) {
            differences += 1;
            println!("difference in {}\n  {what}", corpus::line(input));
        }
    }
    for group in GROUPS {
        let count = inputs.iter().filter(|it| Group::of(it) == group).count();
        println!("fuzz corpus, {group:?}: {count} inputs");
    }
    println!(
        "fuzz corpus: {} inputs, {differences} differences",
        inputs.len()
    );
    differences == 0
}

/// Whether the inputs have calls of all groups, so that none goes untested.
fn has_all_groups(inputs: &[Vec<u8>]) -> bool {
    let has = |group: &Group| inputs.iter().any(|it| Group::of(it) == *group);
    GROUPS.iter().all(has)
}

/// Writes inputs into a folder, which may be a new one.
fn write(folder: &Path, inputs: &[Vec<u8>]) -> io::Result<bool> {
    fs::create_dir_all(folder)?;
    for (index, input) in inputs.iter().enumerate() {
        fs::write(folder.join(index.to_string()), input)?;
    }
    Ok(true)
}

fn pack(folder: &Path) -> io::Result<bool> {
    let mut inputs = corpus::load(folder)?;
    inputs.sort_by_key(|input| (Group::of(input) as usize, input.len()));
    for input in inputs {
        println!("{}", corpus::line(&input));
    }
    Ok(true)
}
