//! Each call at each number of free nodes from 0 to its charge, in a pool that other versions fill: 10 exactly when fewer are free.

use crate::subject::{free_nodes, Subject};
use crate::transcript::Transcript;
use formulas::{degree, drop_charge, nodes, push_charge, set_charge, NEW_CHARGE};
use frames::grown::{grown, LIST};
use frames::numbers::*;
use frames::Frame;

const RESULT: u8 = 1;
const SPARE: u32 = 17;

/// Short ones, and those around powers of the degree.
pub fn lengths(bits: u32) -> Vec<u32> {
    let near = |length: &u32| {
        let mut powers = (1..=10).map(|k| degree(bits).pow(k).min(1 << 16));
        *length <= 40 || powers.any(|power| power.abs_diff(*length) <= 1)
    };
    (0..=1_026).filter(near).collect()
}

pub fn pool(bits: u32, length: u32) -> usize {
    (nodes(bits, length) + SPARE) as usize
}

/// Names and calls, with their charges; 0 for a call that is refused with another number.
fn calls(bits: u32, length: u32) -> [(&'static str, Frame, u32); 6] {
    let edit = |operation, index| Frame {
        index,
        value: 1,
        ..Frame::of(HOST, operation, LIST, RESULT)
    };
    let last = length.max(1) - 1;
    let if_any = |charge: fn(u32, u32) -> u32| match length {
        0 => 0,
        _ => charge(bits, length),
    };
    let set = if_any(set_charge);
    [
        ("new", edit(NEW, bits), NEW_CHARGE),
        ("set first", edit(SET, 0), set),
        ("set middle", edit(SET, length / 2), set),
        ("set last", edit(SET, last), set),
        ("push", edit(PUSH_BACK, 0), push_charge(bits, length)),
        ("drop", edit(DROP_LAST, 0), if_any(drop_charge)),
    ]
}

/// A version of one node, of the parties from 1, and its release.
fn filler(number: u32) -> (Frame, Frame) {
    let (party, slot) = (1 + number as u8 / SLOTS, number as u8 % SLOTS);
    let new = Frame {
        index: 5,
        ..Frame::of(party, NEW, 0, slot)
    };
    (new, Frame::of(party, RELEASE, slot, 0))
}

/// Each row: bits, length, call, free nodes before, number, fresh, free nodes after.
pub fn run(subject: &mut dyn Subject, transcript: &mut Transcript, bits: u32, length: u32) {
    subject.done(&grown(HOST, bits, length));
    for (name, call, charge) in calls(bits, length) {
        for free in (0..=charge).rev() {
            let (fill, release): (Vec<Frame>, Vec<Frame>) = (free..SPARE).map(filler).unzip();
            subject.done(&fill);
            let answers = subject.batch(&[free_nodes(), call, free_nodes()]);
            let [before, after] = [answers[0].value, answers[2].value];
            let (number, fresh) = (answers[1].number, answers[1].fresh);
            let row = format!("{bits} {length} {name} {before} {number} {fresh} {after}");
            transcript.row(length <= 5, row);
            if number == DONE {
                subject.done(&[Frame::of(HOST, RELEASE, RESULT, 0)]);
            }
            subject.done(&release);
        }
    }
    subject.done(&[Frame::of(HOST, RELEASE, LIST, 0)]);
}
