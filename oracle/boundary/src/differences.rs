//! `boundary differences`: the smallest inputs of docs/DIFFERENCES.md, on our side and on the original's.

use crate::scenes::{frame, PARTY};
use formulas::LENGTH_LIMIT;
use frames::grown::grown;
use frames::numbers::*;
use frames::{Answer, Frame};
use lent::Lent;
use original::Vector;
use std::panic::{catch_unwind, set_hook, take_hook, UnwindSafe};

const DEFAULT_BITS: u32 = 5;

type List = Vector<u32>;

struct Difference {
    what: &'static str,
    nodes: usize,
    frames: Vec<Frame>,
    /// Our answer to the last frame.
    number: u8,
    /// Whether the original does what is said of it.
    original: fn() -> bool,
}

pub fn differences() -> bool {
    let mut all: Vec<Difference> = [of_bits(), of_elements(), of_nodes(), of_places()]
        .into_iter()
        .flatten()
        .collect();
    let count = all.len() + 1;
    all.retain(|it| answer_to_last(it.nodes, &it.frames) != it.number || !(it.original)());
    let mut wrong: Vec<&str> = all.iter().map(|it| it.what).collect();
    if !an_ended_walk_stores_nothing() {
        wrong.push("an ended walk");
    }
    match wrong.is_empty() {
        true => println!("differences: {count}, each as docs/DIFFERENCES.md says on both sides"),
        false => println!("differences: not as docs/DIFFERENCES.md says: {wrong:?}"),
    }
    wrong.is_empty()
}

fn of_bits() -> Vec<Difference> {
    vec![
        Difference {
            what: "bits 6",
            nodes: 1,
            frames: vec![new(6, 0)],
            number: BAD_BITS,
            original: || List::new_with_bits(6).push_back(7).get(0) == Some(&7),
        },
        Difference {
            what: "bits 0",
            nodes: 1,
            frames: vec![new(0, 0)],
            number: BAD_BITS,
            original: || quietly(|| List::new_with_bits(0)).is_none(),
        },
        Difference {
            what: "bits 64",
            nodes: 1,
            frames: vec![new(64, 0)],
            number: BAD_BITS,
            original: panics_or_loses,
        },
    ]
}

fn of_elements() -> Vec<Difference> {
    vec![
        Difference {
            what: "one element beyond the limit",
            nodes: 1_060,
            frames: one_push_beyond_the_limit(),
            number: FULL,
            original: || List::from_iter(0..=LENGTH_LIMIT).len() == LENGTH_LIMIT as usize + 1,
        },
        Difference {
            what: "no element there",
            nodes: 1,
            frames: vec![new(DEFAULT_BITS, 0), frame(GET, 0, 0)],
            number: NOTHING_THERE,
            original: || quietly(|| List::new()[0]).is_none(),
        },
    ]
}

fn of_nodes() -> Vec<Difference> {
    vec![
        Difference {
            what: "no node for a second list",
            nodes: 1,
            frames: vec![new(DEFAULT_BITS, 0), new(DEFAULT_BITS, 1)],
            number: NO_NODES,
            original: || List::new() == List::new(),
        },
        Difference {
            what: "a drop that takes no node, with none free",
            nodes: 3,
            frames: [grown(PARTY, 1, 3), vec![frame(DROP_LAST, 0, 1)]].concat(),
            number: NO_NODES,
            original: || List::from_iter(0..3).drop_last() == Some(List::from_iter(0..2)),
        },
    ]
}

fn of_places() -> Vec<Difference> {
    vec![
        Difference {
            what: "the result in its source's place",
            nodes: 1,
            frames: vec![new(DEFAULT_BITS, 0), frame(PUSH_BACK, 0, 0)],
            number: ALREADY_LIVE,
            original: || {
                let mut list = List::new();
                list = list.push_back(7);
                list.len() == 1
            },
        },
        Difference {
            what: "a ninth version",
            nodes: 1,
            frames: vec![new(DEFAULT_BITS, SLOTS)],
            number: OUT_OF_RANGE,
            original: || vec![List::new(); 9].len() == 9,
        },
        Difference {
            what: "a third walk",
            nodes: 1,
            frames: vec![new(DEFAULT_BITS, 0), frame(OPEN_WALK, 0, WALKS)],
            number: OUT_OF_RANGE,
            original: || {
                let list = List::new();
                [list.iter(), list.iter(), list.iter()].len() == 3
            },
        },
    ]
}

fn new(bits: u32, destination: u8) -> Frame {
    Frame {
        index: bits,
        ..frame(NEW, 0, destination)
    }
}

fn one_push_beyond_the_limit() -> Vec<Frame> {
    let mut frames = grown(PARTY, DEFAULT_BITS, LENGTH_LIMIT);
    frames.push(frame(PUSH_BACK, 0, 1));
    frames
}

/// Every frame before it must be done.
fn answer_to_last(nodes: usize, frames: &[Frame]) -> u8 {
    let answers = Lent::formed(nodes).serve(frames).expect("the batch runs");
    let numbers: Vec<u8> = answers.iter().map(|answer| answer.number).collect();
    let (last, before) = numbers.split_last().expect("there is a frame");
    assert!(before.iter().all(|number| *number == DONE), "{numbers:?}");
    *last
}

/// The original makes the stack of that end.
fn an_ended_walk_stores_nothing() -> bool {
    let mut lent = Lent::formed(1);
    let opened = lent.serve(&[new(DEFAULT_BITS, 0), frame(OPEN_WALK, 0, 0)]);
    let before = lent.clone();
    let stepped = lent.serve(&[frame(NEXT, 0, 0)]);
    let done = [Answer::done(1, 0), Answer::done(0, 0)];
    opened == Ok(done.into())
        && stepped == Ok(vec![Answer::refused(NOTHING_THERE)])
        && lent == before
}

/// A shift is too large: an overflow check finds it, and without one the second element takes the place of the first.
fn panics_or_loses() -> bool {
    let list = || List::new_with_bits(64).push_back(7).push_back(8);
    !matches!(quietly(move || list().first().copied()), Some(Some(7)))
}

/// Nothing if it panics, of which nothing is printed.
fn quietly<T>(work: impl FnOnce() -> T + UnwindSafe) -> Option<T> {
    let hook = take_hook();
    set_hook(Box::new(|_| {}));
    let done = catch_unwind(work);
    set_hook(hook);
    done.ok()
}
