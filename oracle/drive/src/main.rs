//! Holds the static library of the crate `host` against scripts that the original has answered, and its audit against a plain one.

mod bench;
mod compare;
mod dag;
mod damage;
mod damages;
mod edit_script;
mod edits;
mod exhaust;
mod held_walks;
mod hostile;
mod ours;
mod part;
mod places;
mod plain_audit;
mod random_calls;
mod refusals;
mod subject;
mod transcript;
mod verdict;
mod walks;

use std::path::Path;
use std::process::ExitCode;
use std::{env, io};

const USAGE: &str = "usage: drive edits|walks|compare [--recorded DIR]
       drive audit [--states N] [--seed S]
       drive bench-audit
       drive record DIR";

const STATES: usize = 2_000_000;
const SEED: u64 = 1;

fn main() -> ExitCode {
    let arguments: Vec<String> = env::args().skip(1).collect();
    let arguments: Vec<&str> = arguments.iter().map(String::as_str).collect();

    match run(&arguments) {
        Some(Ok(true)) => ExitCode::SUCCESS,
        Some(Ok(false)) => ExitCode::FAILURE,
        Some(Err(error)) => {
            eprintln!("drive: {error}");
            ExitCode::FAILURE
        }
        None => {
            eprintln!("{USAGE}");
            ExitCode::from(2)
        }
    }
}

/// Whether all is right; nothing for an unknown command.
fn run(arguments: &[&str]) -> Option<io::Result<bool>> {
    match arguments {
        ["record", directory] => Some(record(Path::new(directory))),
        ["bench-audit"] => Some(Ok(bench::bench_audit())),
        ["audit", options @ ..] => audit(options).map(Ok),
        [part] => held(part, None),
        [part, "--recorded", directory] => held(part, Some(Path::new(directory))),
        _ => None,
    }
}

fn held(part: &str, recorded: Option<&Path>) -> Option<io::Result<bool>> {
    let (own, judged) = match part {
        "edits" => (refusals::refusals(), part::hold::<edits::Edits>(recorded)),
        "walks" => (
            held_walks::held_walks(),
            part::hold::<walks::Walks>(recorded),
        ),
        "compare" => (true, part::hold::<compare::Compare>(recorded)),
        _ => return None,
    };
    Some(judged.map(|agrees| own && agrees))
}

fn record(directory: &Path) -> io::Result<bool> {
    part::record::<edits::Edits>(directory)?;
    part::record::<walks::Walks>(directory)?;
    part::record::<compare::Compare>(directory)
}

fn audit(options: &[&str]) -> Option<bool> {
    let (mut states, mut seed) = (STATES, SEED);
    for option in options.chunks(2) {
        match option {
            ["--states", number] => states = number.parse().ok()?,
            ["--seed", number] => seed = number.parse().ok()?,
            _ => return None,
        }
    }
    Some(damage::campaign(states, seed))
}
