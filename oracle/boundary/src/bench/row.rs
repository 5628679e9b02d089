//! The rows of the table: what is done, how often, and by which frames.

use crate::scenes::{frame, Beside, Scene};
use formulas::LENGTH_LIMIT;
use frames::grown::LIST;
use frames::numbers::*;
use frames::rng::Rng;
use frames::Frame;

/// The largest pool there is.
const LARGE: usize = 65_536;
/// About four times the nodes of a list of the limit with bits 5.
const SMALL: usize = 4_096;
/// With bits 1 two lists of the limit leave too few nodes to push by.
const COMPARED_LENGTH: u32 = LENGTH_LIMIT - 16;
const COMPARES: u32 = 100;
/// Of a long batch of reads.
const PASSES: u32 = 32;
const SEED: u64 = 1;
/// Where an edit of the list goes, and back from there.
const OTHER: u8 = 1;
/// An equal list that shares nothing with the first.
const EQUAL: u8 = 2;

#[derive(Clone, Copy, Debug, PartialEq, Eq)]
pub enum Work {
    Forward,
    Backward,
    GetsInOrder,
    GetsAtRandom,
    Push,
    Set,
    Drop,
    Release,
    Compare,
    Form,
    Audit,
}

use Work::*;

#[derive(Clone, Copy, Debug)]
pub struct Row {
    pub work: Work,
    pub bits: u32,
    /// How often a batch reads the whole list.
    pub passes: u32,
    /// Nodes that are lent.
    pub pool: usize,
}

/// Each work with bits 5 and with bits 1, reads in long batches and in short ones; what depends on the audit in a small pool too. Forming knows no bits.
pub fn rows() -> Vec<Row> {
    let reads = [Forward, Backward, GetsInOrder, GetsAtRandom];
    let others = [Push, Set, Drop, Release, Compare, Audit];
    let row = |work, bits, passes, pool| Row {
        work,
        bits,
        passes,
        pool,
    };
    let long = |work| [5, 1].map(|bits| row(work, bits, PASSES, LARGE));
    let short = |work| [5, 1].map(|bits| row(work, bits, 1, LARGE));
    let small = |work| row(work, 5, 1, SMALL);
    let mut rows: Vec<Row> = reads.into_iter().flat_map(long).collect();
    rows.extend(reads.into_iter().flat_map(short));
    rows.extend(reads.into_iter().map(small));
    rows.extend(others.into_iter().flat_map(short));
    rows.extend([Release, Audit].into_iter().map(small));
    rows.push(row(Form, 5, 1, LARGE));
    rows
}

impl Row {
    pub fn name(&self) -> &'static str {
        match self.work {
            Forward => "walk forward",
            Backward => "walk backward",
            GetsInOrder => "get, in order",
            GetsAtRandom => "get, at random",
            Push => "push, from empty",
            Set => "set, at random",
            Drop => "drop, to empty",
            Release => "release of a list",
            Compare => "compare of equal lists",
            Form => "form",
            Audit => "audit, an empty batch",
        }
    }

    pub fn reads(&self) -> bool {
        matches!(self.work, Forward | Backward | GetsInOrder | GetsAtRandom)
    }

    /// The name, and how long the batches are and how large the pool is where that differs.
    pub fn label(&self) -> String {
        let mut label = self.name().to_string();
        if self.reads() && self.passes == 1 {
            label += ", short";
        }
        if self.pool == SMALL {
            label += ", small pool";
        }
        label
    }

    pub fn title(&self) -> String {
        format!("{}, bits {}", self.label(), self.bits)
    }

    /// Of the list at its longest.
    pub fn length(&self) -> u32 {
        match self.work {
            Compare => COMPARED_LENGTH,
            _ => LENGTH_LIMIT,
        }
    }

    /// Elements, or calls where none is read or edited, of one run.
    pub fn count(&self) -> u32 {
        match self.work {
            Form | Audit => 1,
            Compare => COMPARES * self.length(),
            _ => self.passes * self.length(),
        }
    }

    pub fn is_by_call(&self) -> bool {
        matches!(self.work, Form | Audit)
    }

    pub fn edits(&self) -> bool {
        matches!(self.work, Push | Set | Drop | Release)
    }

    pub fn compares(&self) -> u32 {
        COMPARES
    }

    /// Indices and values, the same for all.
    pub fn picks(&self) -> Vec<(u32, u32)> {
        let mut rng = Rng::new(SEED);
        let mut pick = || (rng.below(self.length() as usize) as u32, rng.word());
        (0..self.length()).map(|_| pick()).collect()
    }

    /// Frames that lead to the state before the run.
    pub fn frames_before(&self) -> Vec<Frame> {
        let length = match self.work {
            Form => return Vec::new(),
            Push => 0,
            _ => self.length(),
        };
        let list = Scene {
            bits: self.bits,
            length,
            beside: Beside::Nothing,
        };
        let mut frames = list.frames();
        if self.work == Compare {
            frames.extend(list.frames().into_iter().map(|frame| Frame {
                slot: frame.slot + EQUAL,
                destination: frame.destination + EQUAL,
                ..frame
            }));
        }
        frames
    }

    pub fn frames(&self) -> Vec<Frame> {
        self.frames_of_a_pass().repeat(self.passes as usize)
    }

    fn frames_of_a_pass(&self) -> Vec<Frame> {
        let length = self.length();
        let get = |index| Frame {
            index,
            ..frame(GET, LIST, 0)
        };
        match self.work {
            Forward => walk(NEXT, length),
            Backward => walk(NEXT_BACK, length),
            GetsInOrder => (0..length).map(get).collect(),
            GetsAtRandom => self.picks().iter().map(|pick| get(pick.0)).collect(),
            Push => edits(PUSH_BACK, &self.picks()),
            Set => edits(SET, &self.picks()),
            Drop => edits(DROP_LAST, &self.picks()),
            Release => vec![frame(RELEASE, LIST, 0)],
            Compare => vec![frame(COMPARE, LIST, EQUAL); COMPARES as usize],
            Form | Audit => Vec::new(),
        }
    }
}

fn walk(step: u8, length: u32) -> Vec<Frame> {
    let mut frames = vec![frame(OPEN_WALK, LIST, 0)];
    frames.extend((0..length).map(|_| frame(step, 0, 0)));
    frames.push(frame(CLOSE_WALK, 0, 0));
    frames
}

/// Each edit fills the other slot, and its source is released.
fn edits(operation: u8, picks: &[(u32, u32)]) -> Vec<Frame> {
    let (mut from, mut to) = (LIST, OTHER);
    let mut frames = Vec::with_capacity(2 * picks.len());
    for &(index, value) in picks {
        frames.push(Frame {
            index,
            value,
            ..frame(operation, from, to)
        });
        frames.push(frame(RELEASE, from, 0));
        (from, to) = (to, from);
    }
    frames
}
