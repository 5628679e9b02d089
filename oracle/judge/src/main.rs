//! Runs the original and holds document 01's formulas, or its recorded answers, against it.

mod costs;
mod measure;
mod record;
mod shape;
mod tally;

use std::path::Path;
use std::process::ExitCode;
use std::{env, io};

const USAGE: &str = "usage: judge costs | judge record DIR | judge recorded DIR";

fn main() -> ExitCode {
    let arguments: Vec<String> = env::args().skip(1).collect();
    let arguments: Vec<&str> = arguments.iter().map(String::as_str).collect();

    match arguments[..] {
        ["costs"] => exit_code(costs::judge_costs()),
        ["record", directory] => finish(record::write(Path::new(directory))),
        ["recorded", directory] => finish(record::compare(Path::new(directory))),
        _ => {
            eprintln!("{USAGE}");
            ExitCode::from(2)
        }
    }
}

fn finish(outcome: io::Result<bool>) -> ExitCode {
    outcome.map_or_else(
        |error| {
            eprintln!("judge: {error}");
            ExitCode::FAILURE
        },
        exit_code,
    )
}

fn exit_code(agrees: bool) -> ExitCode {
    if agrees {
        ExitCode::SUCCESS
    } else {
        ExitCode::FAILURE
    }
}
