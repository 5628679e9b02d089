//! `drive walks`: what walks take from both ends, against the original's `iter()`.

use crate::part::Part;
use crate::subject::Subject;
use crate::transcript::{Fnv1a, Transcript};
use frames::grown::{grown, LIST};
use frames::numbers::*;
use frames::rng::Rng;
use frames::Frame;

pub const POOL: usize = 128;
pub const MOST: u32 = 70;
pub const WALKED_BITS: [u32; 3] = [1, 2, 5];
const PARTY: u8 = 2;
const WALK: u8 = 1;
/// Lists up to this length are walked in every order of front and back.
const EVERY_ORDER: u32 = 8;

pub struct Walks;

impl Part for Walks {
    const NAME: &'static str = "walks";
    const COLUMNS: &'static str =
        "bits, length, how the ends alternate, walks, checksum of what they answer";

    fn run<S: Subject>(
        make: impl Fn(usize) -> S,
        mut done: impl FnMut(S),
        transcript: &mut Transcript,
    ) {
        for bits in WALKED_BITS {
            for length in 0..=MOST {
                let mut subject = make(POOL);
                subject.done(&grown(PARTY, bits, length));
                for (kind, walks) in orders(length) {
                    let mut checksum = Fnv1a::default();
                    for ends in &walks {
                        let steps: Vec<Frame> = ends.iter().map(step).collect();
                        subject.done(&[Frame::of(PARTY, OPEN_WALK, LIST, WALK)]);
                        let answers = subject.each(&steps);
                        answers.iter().for_each(|it| checksum.feed_answer(it));
                        subject.done(&[Frame::of(PARTY, CLOSE_WALK, WALK, 0)]);
                    }
                    let (walks, sum) = (walks.len(), checksum.0);
                    transcript.row(true, format!("{bits} {length} {kind} {walks} {sum:016x}"));
                }
                done(subject);
            }
        }
    }
}

fn step(back: &bool) -> Frame {
    let operation = if *back { NEXT_BACK } else { NEXT };
    Frame::of(PARTY, operation, WALK, 0)
}

/// Orders of front (false) and back (true), each with steps beyond the end.
fn orders(length: u32) -> Vec<(&'static str, Vec<Vec<bool>>)> {
    let n = length as usize;
    let beyond = [false, true, true, false];
    let order =
        |end: &dyn Fn(usize) -> bool| -> Vec<bool> { (0..n).map(end).chain(beyond).collect() };
    let split = |first: bool| {
        (0..=n)
            .map(|k| order(&|step| (step < k) == first))
            .collect()
    };
    let mut rng = Rng::new(u64::from(length));
    let mut random = || {
        let ends: Vec<bool> = (0..n).map(|_| rng.below(2) == 1).collect();
        order(&|step| ends[step])
    };
    let mut kinds = vec![
        ("back-then-front", split(true)),
        ("front-then-back", split(false)),
        ("mixed", (0..8).map(|_| random()).collect()),
    ];
    if length <= EVERY_ORDER {
        let every = (0..1usize << n).map(|k| order(&|step| k >> step & 1 == 1));
        kinds.push(("every", every.collect()));
    }
    kinds
}
