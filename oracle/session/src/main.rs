//! The program of document 01 made of the original's vectors, and sessions for it.

use session::{bench, count, lines, make, mix, program, record};
use std::io::{Read, Write};
use std::path::Path;
use std::process::ExitCode;
use std::{env, io};

const USAGE: &str = "usage: session answer <LINES >ANSWERS
       session make SEED COUNT >LINES
       session count <LINES
       session record DIR | session recorded DIR
       session program PATH [--seeds A..B] [--lines COUNT]
       session mix COUNT >LINES
       session bench PATH LINES";

fn main() -> ExitCode {
    let arguments: Vec<String> = env::args().skip(1).collect();
    let arguments: Vec<&str> = arguments.iter().map(String::as_str).collect();

    match run(&arguments) {
        Some(Ok(true)) => ExitCode::SUCCESS,
        Some(Ok(false)) => ExitCode::FAILURE,
        Some(Err(error)) => {
            eprintln!("session: {error}");
            ExitCode::FAILURE
        }
        None => {
            eprintln!("{USAGE}");
            ExitCode::from(2)
        }
    }
}

/// Whether all is right; nothing for an unknown command.
fn run(arguments: &[&str]) -> Option<io::Result<bool>> {
    match arguments {
        ["answer"] => Some(told(lines::answers)),
        ["count"] => Some(told(|input| count::Count::of(input).to_string())),
        ["make", seed, count] => {
            let (seed, count) = (seed.parse().ok()?, count.parse().ok()?);
            Some(print(&make::make(seed, count)))
        }
        ["record", directory] => Some(record::write(Path::new(directory))),
        ["recorded", directory] => Some(record::compare(Path::new(directory))),
        ["program", path, options @ ..] => held(Path::new(path), options),
        ["mix", count] => Some(print(&mix::mix(count.parse().ok()?))),
        ["bench", path, input] => Some(bench::bench(Path::new(path), Path::new(input))),
        _ => None,
    }
}

/// Seeds go from A to one below B.
fn held(path: &Path, options: &[&str]) -> Option<io::Result<bool>> {
    let (mut seeds, mut count) = (program::SEEDS, program::LINES);
    for option in options.chunks(2) {
        match option {
            ["--seeds", range] => {
                let (first, beyond) = range.split_once("..")?;
                seeds = first.parse().ok()?..beyond.parse().ok()?;
            }
            ["--lines", number] => count = number.parse().ok()?,
            _ => return None,
        }
    }
    Some(program::hold(path, seeds, count))
}

/// Prints what is to be told of the input.
fn told(tell: impl FnOnce(&[u8]) -> String) -> io::Result<bool> {
    let mut input = Vec::new();
    io::stdin().read_to_end(&mut input)?;
    print(tell(&input).as_bytes())
}

fn print(output: &[u8]) -> io::Result<bool> {
    io::stdout().write_all(output)?;
    Ok(true)
}
