//! Holds the static library of the crate `host`, by its C functions, against the model made of the original's vectors.

mod around;
mod author;
mod bench;
mod calls;
mod differences;
mod differential;
mod edited;
mod exhaust;
mod lengths;
mod pair;
mod scenes;
mod sequences;
mod week;

use std::env;
use std::path::Path;
use std::process::ExitCode;

const CALLS: usize = 5;
const FRAMES: usize = 2_000_000;
const EDITS: usize = 200_000;
const ROUNDS: usize = 2;
const SEED: u64 = 1;

const USAGE: &str = "usage: boundary differences
       boundary exhaust
       boundary differential [--frames N] [--seed S]
       boundary sequences [--calls N]
       boundary lengths [--rounds N] [--seed S]
       boundary week [--edits N] [--seed S]
       boundary bench PLOT [--rounds N] [--row NAME] [--im-rc LIBRARY]
       boundary instructions [--row NAME] [--im-rc LIBRARY]
       boundary count ROW SIDE [LIBRARY]";

fn main() -> ExitCode {
    let arguments: Vec<String> = env::args().skip(1).collect();
    let arguments: Vec<&str> = arguments.iter().map(String::as_str).collect();
    match run(&arguments) {
        Some(true) => ExitCode::SUCCESS,
        Some(false) => ExitCode::FAILURE,
        None => {
            eprintln!("{USAGE}");
            ExitCode::from(2)
        }
    }
}

/// Whether all agrees; nothing for an unknown command.
fn run(arguments: &[&str]) -> Option<bool> {
    match arguments {
        ["differences"] => Some(differences::differences()),
        ["exhaust"] => Some(exhaust::exhaust()),
        ["sequences"] => Some(sequences::sequences(CALLS)),
        ["sequences", "--calls", number] => {
            let calls = number.parse().ok().filter(|calls| *calls > 0)?;
            Some(sequences::sequences(calls))
        }
        ["differential", options @ ..] => {
            let (frames, seed) = amount_and_seed(options, "--frames", FRAMES)?;
            Some(differential::differential(frames, seed))
        }
        ["lengths", options @ ..] => {
            let (rounds, seed) = amount_and_seed(options, "--rounds", ROUNDS)?;
            Some(lengths::lengths(rounds, seed))
        }
        ["week", options @ ..] => {
            let (edits, seed) = amount_and_seed(options, "--edits", EDITS)?;
            Some(week::week(edits, seed))
        }
        ["bench", plot, options @ ..] => Some(bench::bench(Path::new(plot), choice(options)?)),
        ["instructions", options @ ..] => Some(bench::instructions(choice(options)?)),
        ["count", row, side] => Some(bench::count(row, side, None)),
        ["count", row, side, im_rc] => Some(bench::count(row, side, Some(im_rc))),
        _ => None,
    }
}

/// The number after an option of this name, and the seed.
fn amount_and_seed(options: &[&str], name: &str, unless_told: usize) -> Option<(usize, u64)> {
    let (mut amount, mut seed) = (unless_told, SEED);
    for option in options.chunks(2) {
        match option {
            ["--seed", number] => seed = number.parse().ok()?,
            [told, number] if *told == name => amount = number.parse().ok()?,
            _ => return None,
        }
    }
    Some((amount, seed))
}

fn choice<'a>(options: &[&'a str]) -> Option<bench::Choice<'a>> {
    let mut choice = bench::EVERY_ROW;
    for option in options.chunks(2) {
        match option {
            ["--rounds", number] => {
                let rounds = number.parse().ok().filter(|rounds| *rounds > 0)?;
                choice.effort = bench::Effort::exactly(rounds);
            }
            ["--row", text] => choice.row = text,
            ["--im-rc", path] => choice.im_rc = Some(path),
            _ => return None,
        }
    }
    Some(choice)
}
