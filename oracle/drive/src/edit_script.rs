//! The script of `drive edits`: pushes, sets and drops at every length, each answer a row.

use crate::subject::{free_nodes, Subject};
use crate::transcript::{Fnv1a, Transcript};
use formulas::degree;
use frames::grown::element;
use frames::numbers::*;
use frames::Frame;
use std::mem::swap;

const LONGEST: u32 = 1_100;
/// A binary list is as long as this pool allows.
const BINARY_POOL: usize = 4_096;
const POOL: usize = 1_024;
/// Old versions are kept at these lengths, in the slots from 2 upwards.
const KEPT: [u32; 6] = [0, 1, 2, 33, 130, 1_025];
const FIRST_KEPT: u8 = 2;

pub fn pool(bits: u32) -> usize {
    if bits == 1 {
        BINARY_POOL
    } else {
        POOL
    }
}

/// Every element is read at these lengths.
pub fn is_noted(bits: u32, length: u32) -> bool {
    let mut powers = (1..=15).map(|k| degree(bits).pow(k).min(1 << 16));
    length <= 130 || powers.any(|power| power.abs_diff(length) <= 2)
}

fn indices(bits: u32, length: u32) -> Vec<u32> {
    let mut indices: Vec<u32> = if is_noted(bits, length) {
        (0..length).collect()
    } else {
        let spread = (0..16).map(|k| element(k + length) % length);
        spread.chain([0, length / 2, length - 1]).collect()
    };
    indices.extend([length, length + 1, u32::MAX]);
    indices
}

fn frame(operation: u8, slot: u8, destination: u8) -> Frame {
    Frame::of(HOST, operation, slot, destination)
}

/// A list, the slot that its edits fill, and its length.
#[derive(Clone, Copy)]
struct List {
    slot: u8,
    other: u8,
    length: u32,
}

impl List {
    fn edit(&self, operation: u8) -> Frame {
        frame(operation, self.slot, self.other)
    }
}

/// Runs one bits' script. Each row: bits, length, call, number, fresh, free nodes, and a checksum of what the gets answer.
pub struct Script<'a> {
    pub subject: &'a mut dyn Subject,
    pub transcript: &'a mut Transcript,
    pub bits: u32,
}

impl Script<'_> {
    pub fn run(&mut self) {
        let mut list = List {
            slot: 0,
            other: 1,
            length: 0,
        };
        let new = Frame {
            index: self.bits,
            ..frame(NEW, 0, list.slot)
        };
        self.row("new", 0, new, (list.slot, 0));
        let mut kept = 0;
        loop {
            if KEPT.get(usize::from(kept)) == Some(&list.length) {
                let clone = frame(CLONE, list.slot, FIRST_KEPT + kept);
                self.subject.done(&[clone]);
                kept += 1;
            }
            self.sets(&list);
            self.drop_aside(&list);
            if self.bits > 1 && list.length == LONGEST {
                break;
            }
            let push = Frame {
                value: element(list.length),
                ..list.edit(PUSH_BACK)
            };
            let longer = list.length + 1;
            if self.row("push", list.length, push, (list.other, longer)) == NO_NODES {
                break;
            }
            self.replace(&mut list, longer);
        }
        self.drops(list);
        self.kept(kept);
    }

    /// The list becomes what an edit made of it.
    fn replace(&mut self, list: &mut List, length: u32) {
        self.subject.done(&[frame(RELEASE, list.slot, 0)]);
        swap(&mut list.slot, &mut list.other);
        list.length = length;
    }

    /// At the first, middle and last index, and beyond; the source stays.
    fn sets(&mut self, list: &List) {
        let length = list.length;
        for index in [0, length / 2, length.max(1) - 1, length, u32::MAX] {
            let set = Frame {
                index,
                value: !element(index),
                ..list.edit(SET)
            };
            self.aside("set", list, set, length);
        }
    }

    fn drop_aside(&mut self, list: &List) {
        let shorter = list.length.saturating_sub(1);
        self.aside("drop", list, list.edit(DROP_LAST), shorter);
    }

    /// What the call makes is released.
    fn aside(&mut self, name: &str, list: &List, call: Frame, length: u32) {
        if self.row(name, list.length, call, (list.other, length)) == DONE {
            self.subject.done(&[frame(RELEASE, list.other, 0)]);
        }
    }

    /// Back to empty, each result in its source's place.
    fn drops(&mut self, mut list: List) {
        loop {
            let shorter = list.length.saturating_sub(1);
            let drop = list.edit(DROP_LAST);
            if self.row("drop back", list.length, drop, (list.other, shorter)) != DONE {
                break;
            }
            self.replace(&mut list, shorter);
        }
        self.subject.done(&[frame(RELEASE, list.slot, 0)]);
    }

    /// Old versions have their contents still; with the last of them every node is given back.
    fn kept(&mut self, kept: u8) {
        for (slot, length) in (FIRST_KEPT..FIRST_KEPT + kept).zip(KEPT) {
            self.row("kept", length, frame(LENGTH, slot, 0), (slot, length));
            self.subject.done(&[frame(RELEASE, slot, 0)]);
        }
        let free = self.subject.batch(&[free_nodes()])[0].value;
        self.transcript
            .row(true, format!("{} released {free}", self.bits));
    }

    /// Serves a call, and in the same batch reads the free nodes and what is in a slot if the call is done. Answers its number.
    fn row(&mut self, name: &str, length: u32, call: Frame, (slot, filled): (u8, u32)) -> u8 {
        let bits = self.bits;
        let get = |index| Frame {
            index,
            ..frame(GET, slot, 0)
        };
        let gets = indices(bits, filled).into_iter().map(get);
        let frames: Vec<Frame> = [call, free_nodes()].into_iter().chain(gets).collect();
        let answers = self.subject.batch(&frames);
        let (number, fresh, free) = (answers[0].number, answers[0].fresh, answers[1].value);
        let mut row = format!("{bits} {length} {name} {number} {fresh} {free}");
        if number == DONE {
            let mut checksum = Fnv1a::default();
            answers[2..].iter().for_each(|it| checksum.feed_answer(it));
            row += &format!(" {:016x}", checksum.0);
        }
        let noted = is_noted(bits, length) || number == NO_NODES;
        self.transcript.row(noted, row);
        number
    }
}
