//! `session bench`: the program beside the model, over one input, by turns.

use crate::lines;
use crate::state::{State, POOL};
use frames::Frame;
use std::fs::{self, File};
use std::hint::black_box;
use std::io;
use std::path::Path;
use std::process::{Command, Stdio};
use std::time::{Duration, Instant};
use std::{env, fmt};

const ROUNDS: usize = 9;

/// Prints frames a second of the program, of the model as a program, and of the model's serving alone; answers whether both programs write the same.
pub fn bench(path: &Path, input: &Path) -> io::Result<bool> {
    let mut program = Command::new(path);
    let mut model = Command::new(env::current_exe()?);
    model.arg("answer");
    let text = fs::read(input)?;
    let frames: Vec<Frame> = lines::lines(&text).filter_map(Frame::of_line).collect();

    let alike = output(&mut program, input)? == output(&mut model, input)?;
    if !alike {
        println!("the program answers other than the model");
    }
    let mut times = [const { Vec::new() }; 3];
    for _ in 0..ROUNDS {
        times[0].push(run(&mut program, input)?);
        times[1].push(run(&mut model, input)?);
        times[2].push(serve(&frames));
    }
    let count = lines::lines(&text).count();
    let [program, model, serving] = times.map(|times| Rates::of(count, &times));
    let ratio = |other: &Rates| program.median / other.median;
    println!("{count} frames, {ROUNDS} rounds, frames a second:");
    println!("program: {program}");
    println!("model: {model}; program / model {:.2}", ratio(&model));
    println!(
        "model, no lines read or written: {serving}; program / it {:.2}",
        ratio(&serving)
    );
    Ok(alike)
}

fn output(command: &mut Command, input: &Path) -> io::Result<Vec<u8>> {
    let command = command.stdin(File::open(input)?).stdout(Stdio::piped());
    Ok(command.output()?.stdout)
}

/// From a file to nowhere, the start of the process included.
fn run(command: &mut Command, input: &Path) -> io::Result<Duration> {
    command.stdin(File::open(input)?).stdout(Stdio::null());
    let start = Instant::now();
    let status = command.status()?;
    let elapsed = start.elapsed();
    if !status.success() {
        return Err(io::Error::other(status.to_string()));
    }
    Ok(elapsed)
}

fn serve(frames: &[Frame]) -> Duration {
    let mut state = State::fresh(POOL);
    let start = Instant::now();
    for frame in frames {
        black_box(state.serve(black_box(frame)));
    }
    start.elapsed()
}

/// Frames a second.
struct Rates {
    median: f64,
    least: f64,
    most: f64,
}

impl Rates {
    fn of(frames: usize, times: &[Duration]) -> Rates {
        let rate = |time: &Duration| frames as f64 / time.as_secs_f64();
        let mut rates: Vec<f64> = times.iter().map(rate).collect();
        rates.sort_by(f64::total_cmp);
        Rates {
            median: rates[rates.len() / 2],
            least: rates[0],
            most: rates[rates.len() - 1],
        }
    }
}

impl fmt::Display for Rates {
    fn fmt(&self, formatter: &mut fmt::Formatter<'_>) -> fmt::Result {
        let [median, least, most] = [self.median, self.least, self.most].map(|rate| rate / 1e6);
        write!(
            formatter,
            "median {median:.2} million, from {least:.2} to {most:.2}"
        )
    }
}
