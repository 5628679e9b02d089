//! `drive bench-audit`: our audit, as an empty batch, beside a plain copy of the same memory, in one run.

use crate::hostile::{cycles, scattered};
use crate::verdict::judge;
use formulas::LENGTH_LIMIT;
use frames::grown::{element, grown, LIST};
use frames::numbers::*;
use frames::Frame;
use lent::{ffi, Lent};
use std::hint::black_box;
use std::time::{Duration, Instant};

const POOL: usize = 65_536;
const ROUNDS: usize = 31;

/// Pool, bits and length of states whose lists have no branch in common.
const HOSTILE: [(usize, u32, u32); 8] = [
    (POOL, 1, LENGTH_LIMIT),
    (POOL, 2, LENGTH_LIMIT),
    (POOL, 3, LENGTH_LIMIT),
    (POOL, 4, LENGTH_LIMIT),
    (POOL, 5, LENGTH_LIMIT),
    (256, 1, 64),
    (256, 3, 512),
    (256, 5, 1_024),
];

/// Prints a line for each state and answers whether both audits judge each alike.
pub fn bench_audit() -> bool {
    let mut agree = true;
    let mut line = |name: &str, lent: Lent| agree &= bench(name, lent);
    for bits in [5, 1] {
        let name = format!("65,536 nodes, 64 versions that share a list, bits {bits}");
        line(&name, shared(POOL, bits, LENGTH_LIMIT));
        let name = format!("65,536 nodes, one list of 32,768, bits {bits}");
        line(&name, list(POOL, bits, LENGTH_LIMIT));
    }
    let name = "256 nodes, 64 versions that share a list of 500, bits 5";
    line(name, shared(256, 5, 500));
    let name = "256 nodes, 64 versions and 16 walks of a binary list of 200";
    line(name, walked(256, 1, 200));
    for nodes in [1, 256, POOL] {
        line(&format!("{nodes} nodes, fresh"), Lent::fresh(nodes));
    }
    for (pool, bits, length) in HOSTILE {
        let (lent, lists) = scattered(pool, bits, length);
        let name =
            format!("{pool} nodes, hostile: {lists} scattered lists of {length}, bits {bits}");
        line(&name, lent.clone());
        line(&format!("{name}, last count wrong"), spoilt(lent));
    }
    line("65,536 nodes, hostile: cycles", cycles(POOL));
    agree
}

fn served(pool: usize, frames: &[Frame]) -> Lent {
    let mut lent = Lent::fresh(pool);
    let answers = lent.serve(frames).expect("the state is well-formed");
    assert!(answers.iter().all(|answer| answer.number == DONE));
    lent
}

fn list(pool: usize, bits: u32, length: u32) -> Lent {
    served(pool, &grown(HOST, bits, length))
}

/// Every party has the list.
fn handed_out(bits: u32, length: u32) -> Vec<Frame> {
    let mut frames = grown(HOST, bits, length);
    frames.extend((1..PARTIES).map(|party| Frame::hand_over((HOST, LIST), (party, LIST))));
    frames
}

/// So many numbers of each party, with the number among all.
fn numbers_of_parties(each: u8) -> impl Iterator<Item = (u8, u8, u8)> {
    let of = move |party| (0..each).map(move |number| (party, number, each * party + number));
    (0..PARTIES).flat_map(of)
}

/// Every other slot has the list with one element set.
fn shared(pool: usize, bits: u32, length: u32) -> Lent {
    let mut frames = handed_out(bits, length);
    for (party, slot, number) in numbers_of_parties(SLOTS).filter(|it| it.1 != LIST) {
        frames.push(Frame {
            index: element(number.into()) % length,
            value: 7,
            ..Frame::of(party, SET, LIST, slot)
        });
    }
    served(pool, &frames)
}

/// Every slot and every walk has the list, and each walk has taken some from both ends.
fn walked(pool: usize, bits: u32, length: u32) -> Lent {
    let mut frames = handed_out(bits, length);
    for (party, slot, _) in numbers_of_parties(SLOTS).filter(|it| it.1 != LIST) {
        frames.push(Frame::of(party, CLONE, LIST, slot));
    }
    for (party, walk, number) in numbers_of_parties(WALKS) {
        frames.push(Frame::of(party, OPEN_WALK, LIST, walk));
        let steps = [NEXT, NEXT_BACK].into_iter().cycle();
        let steps = steps.take(usize::from(number) + 1);
        frames.extend(steps.map(|step| Frame::of(party, step, walk, 0)));
    }
    served(pool, &frames)
}

/// Refused only when the last node is compared.
fn spoilt(mut lent: Lent) -> Lent {
    if let Some(count) = lent.counts.last_mut() {
        *count += 1;
    }
    lent
}

/// By turns, so that what slows the machine slows both.
fn bench(name: &str, mut lent: Lent) -> bool {
    let mut copy = lent.clone();
    let mut times = [const { Vec::new() }; 2];
    for _ in 0..ROUNDS {
        times[0].push(time(|| {
            black_box(ffi::batch(black_box(&mut lent), &[], &mut []));
        }));
        times[1].push(time(|| black_box(&mut copy).clone_from(black_box(&lent))));
    }
    let [audit, copying] = times.map(Times::of);
    let verdict = judge(&mut lent);
    let ratio = |a: Duration, b: Duration| a.as_secs_f64() / b.as_secs_f64();
    println!(
        "{name}: audit {:.1?}, copy {:.1?}, ratio {:.2} (of the least times {:.2}), answer {}",
        audit.median,
        copying.median,
        ratio(audit.median, copying.median),
        ratio(audit.least, copying.least),
        verdict.ours.err().unwrap_or(0)
    );
    if !verdict.agrees() {
        println!("{name}: the audits disagree: {verdict:?}");
    }
    verdict.agrees()
}

fn time(run: impl FnOnce()) -> Duration {
    let start = Instant::now();
    run();
    start.elapsed()
}

struct Times {
    median: Duration,
    least: Duration,
}

impl Times {
    fn of(mut times: Vec<Duration>) -> Times {
        times.sort();
        Times {
            median: times[times.len() / 2],
            least: times[0],
        }
    }
}
