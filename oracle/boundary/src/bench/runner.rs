//! Runs taken by turns, and their times.

use std::time::{Duration, Instant};

/// How often each row is taken: so many times, and on until the time is over.
#[derive(Clone, Copy, Debug)]
pub struct Effort {
    rounds: usize,
    time: Duration,
}

/// A row of short runs is taken often, so that no short disturbance decides it.
pub const FULL: Effort = Effort {
    rounds: 15,
    time: Duration::from_secs(1),
};

impl Effort {
    pub fn exactly(rounds: usize) -> Effort {
        let time = Duration::ZERO;
        Effort { rounds, time }
    }
}

pub trait Runner {
    /// Makes the state before the run, where the last run changed it.
    fn prepare(&mut self);
    /// The only part that is timed.
    fn run(&mut self);
    /// Of what the run read and of what is there after it.
    fn sum(&self) -> u64;
}

/// Each run of it so many times.
pub struct Repeated<R> {
    pub runner: R,
    pub times: u32,
}

impl<R: Runner> Runner for Repeated<R> {
    fn prepare(&mut self) {
        self.runner.prepare();
    }

    fn run(&mut self) {
        for _ in 0..self.times {
            self.runner.run();
        }
    }

    fn sum(&self) -> u64 {
        self.runner.sum()
    }
}

/// Seconds of one run.
#[derive(Clone, Copy, Debug)]
pub struct Times {
    pub count: usize,
    pub median: f64,
    pub least: f64,
    pub most: f64,
}

impl Times {
    /// Nothing of no time.
    fn of(mut times: Vec<f64>) -> Option<Times> {
        times.sort_by(f64::total_cmp);
        Some(Times {
            count: times.len(),
            median: *times.get(times.len() / 2)?,
            least: *times.first()?,
            most: *times.last()?,
        })
    }
}

/// By turns, so that what slows the machine slows all; each timed run has one before it that is not.
pub fn by_turns<const N: usize>(
    runners: &mut [Option<Box<dyn Runner>>; N],
    effort: Effort,
) -> [Option<Times>; N] {
    let mut times = [const { Vec::new() }; N];
    let (begin, mut rounds) = (Instant::now(), 0);
    while rounds < effort.rounds || begin.elapsed() < effort.time {
        rounds += 1;
        for (runner, times) in runners.iter_mut().zip(&mut times) {
            let Some(runner) = runner else { continue };
            runner.prepare();
            runner.run();
            runner.prepare();
            let start = Instant::now();
            runner.run();
            times.push(start.elapsed().as_secs_f64());
        }
    }
    times.map(Times::of)
}

/// Of elements in their order.
pub fn sum_in_order(sum: u64, elements: impl Iterator<Item = u32>) -> u64 {
    elements.fold(sum, |sum, element| {
        sum.wrapping_mul(31).wrapping_add(u64::from(element))
    })
}
