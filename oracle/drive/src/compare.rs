//! `drive compare`: pairs of lists of mixed bits around equal prefixes, against the original's `cmp`.

use crate::part::Part;
use crate::subject::Subject;
use crate::transcript::{Fnv1a, Transcript};
use formulas::BITS;
use frames::numbers::*;
use frames::Frame;
use std::mem::swap;

const MOST: u32 = 70;
const POOL: usize = 400;
const FRAMES_A_BATCH: usize = 128;
const PARTY: u8 = 1;
/// Each list's slots, by turns, and the slot of the one with a changed element.
const LIST: [u8; 2] = [0, 1];
const OTHER: [u8; 2] = [2, 3];
const CHANGED: u8 = 4;
/// Around 0, the largest signed number and the largest unsigned one.
const VALUES: [u32; 9] = [
    0,
    1,
    0x7fff_fffe,
    0x7fff_ffff,
    0x8000_0000,
    0x8000_0001,
    0xffff_fffe,
    0xffff_ffff,
    0,
];

fn value(index: u32) -> u32 {
    VALUES[index as usize % VALUES.len()]
}

pub struct Compare;

impl Part for Compare {
    const NAME: &'static str = "compare";
    const COLUMNS: &'static str =
        "bits of one list, of the other, length of the one, how many compare as less, equal, greater, checksum of the answers";

    fn run<S: Subject>(
        make: impl Fn(usize) -> S,
        mut done: impl FnMut(S),
        transcript: &mut Transcript,
    ) {
        for bits in BITS {
            for other_bits in BITS {
                let mut subject = make(POOL);
                all_lengths(&mut subject, transcript, bits, other_bits);
                done(subject);
            }
        }
    }
}

fn all_lengths(subject: &mut dyn Subject, transcript: &mut Transcript, bits: u32, other: u32) {
    let [mut list, mut spare] = LIST;
    subject.done(&[new(list, bits)]);
    for length in 0..=MOST {
        let Answers {
            counts: [less, equal, greater],
            checksum: Fnv1a(sum),
        } = Answers::of(subject, &against_all(list, other));
        let row = format!("{bits} {other} {length} {less} {equal} {greater} {sum:016x}");
        transcript.row(length % 10 == 0, row);
        subject.done(&pushed(list, spare, length));
        swap(&mut list, &mut spare);
    }
    subject.done(&[frame(RELEASE, list, 0)]);
}

#[derive(Default)]
struct Answers {
    counts: [usize; 3],
    checksum: Fnv1a,
}

impl Answers {
    /// Serves frames that are all done.
    fn of(subject: &mut dyn Subject, frames: &[Frame]) -> Answers {
        let mut answers = Answers::default();
        for frames in frames.chunks(FRAMES_A_BATCH) {
            for (frame, answer) in frames.iter().zip(subject.batch(frames)) {
                assert_eq!(answer.number, DONE, "{frame:?}");
                if frame.operation == COMPARE {
                    answers.add(answer.value.cast_signed());
                }
            }
        }
        answers
    }

    fn add(&mut self, order: i32) {
        self.counts[(order.clamp(-1, 1) + 1) as usize] += 1;
        self.checksum.feed(&order.to_be_bytes());
    }
}

fn frame(operation: u8, slot: u8, destination: u8) -> Frame {
    Frame::of(PARTY, operation, slot, destination)
}

fn new(destination: u8, bits: u32) -> Frame {
    Frame {
        index: bits,
        ..frame(NEW, 0, destination)
    }
}

/// One more element; the source is released.
fn pushed(slot: u8, destination: u8, length: u32) -> [Frame; 2] {
    let push = Frame {
        value: value(length),
        ..frame(PUSH_BACK, slot, destination)
    };
    [push, frame(RELEASE, slot, 0)]
}

fn both_ways(slot: u8, other: u8) -> [Frame; 2] {
    [frame(COMPARE, slot, other), frame(COMPARE, other, slot)]
}

/// A list against prefixes of the same elements, and against those with one element a little less or more.
fn against_all(list: u8, bits: u32) -> Vec<Frame> {
    let [mut other, mut spare] = OTHER;
    let mut frames = vec![new(other, bits)];
    for length in 0..=MOST {
        frames.extend(both_ways(list, other));
        for (index, by) in [(0, 1), (length / 2, u32::MAX), (length.max(1) - 1, 1)] {
            if index < length {
                frames.push(Frame {
                    index,
                    value: value(index).wrapping_add(by),
                    ..frame(SET, other, CHANGED)
                });
                frames.extend(both_ways(list, CHANGED));
                frames.push(frame(RELEASE, CHANGED, 0));
            }
        }
        frames.extend(pushed(other, spare, length));
        swap(&mut other, &mut spare);
    }
    frames.push(frame(RELEASE, other, 0));
    frames
}
