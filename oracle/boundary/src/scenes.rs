//! Small states to call on: one list of party 1, with others, walks or neither beside it.

use frames::grown::{grown, LIST};
use frames::numbers::*;
use frames::Frame;

pub const PARTY: u8 = 1;
const OTHER: u8 = 1;
pub const CLONED: u8 = 2;
const SET_LAST: u8 = 3;
const DROPPED: u8 = 4;
/// Empty in every scene.
pub const EMPTY: u8 = 5;
/// Steps of a walk that stays open.
const STEPS: u32 = 3;

#[derive(Clone, Copy, Debug, PartialEq, Eq)]
pub enum Beside {
    Nothing,
    /// A clone, two edits, and lists handed over.
    Shared,
    /// Two walks, one taken from both ends.
    Walked,
    /// A walk that has taken each element.
    Ended,
    /// A walk on the version that the list was made of, whose slot is released.
    Held,
}

pub const ALL_BESIDE: [Beside; 5] = [
    Beside::Nothing,
    Beside::Shared,
    Beside::Walked,
    Beside::Ended,
    Beside::Held,
];

#[derive(Clone, Copy, Debug)]
pub struct Scene {
    pub bits: u32,
    pub length: u32,
    pub beside: Beside,
}

pub fn frame(operation: u8, slot: u8, destination: u8) -> Frame {
    Frame::of(PARTY, operation, slot, destination)
}

pub fn set(slot: u8, destination: u8, index: u32) -> Frame {
    Frame {
        index,
        value: 7,
        ..frame(SET, slot, destination)
    }
}

/// The list goes to a slot of the same number.
pub fn hand_over(to: u8) -> Frame {
    Frame::hand_over((PARTY, LIST), (to, LIST))
}

impl Scene {
    pub fn frames(&self) -> Vec<Frame> {
        let mut frames = grown(PARTY, self.bits, self.length);
        let (length, last) = (self.length, self.length.saturating_sub(1));
        match self.beside {
            Beside::Nothing => {}
            Beside::Shared => {
                frames.push(frame(CLONE, LIST, CLONED));
                if length > 0 {
                    frames.push(set(LIST, SET_LAST, last));
                    frames.push(frame(DROP_LAST, LIST, DROPPED));
                }
                frames.extend([hand_over(HOST), hand_over(2)]);
            }
            Beside::Walked => {
                frames.extend([0, 1].map(|walk| frame(OPEN_WALK, LIST, walk)));
                for _ in 0..STEPS.min(length) {
                    frames.extend([frame(NEXT, 0, 0), frame(NEXT_BACK, 0, 0)]);
                }
            }
            Beside::Ended => {
                frames.push(frame(OPEN_WALK, LIST, 0));
                frames.extend((0..length).map(|step| frame(NEXT + (step % 2) as u8, 0, 0)));
            }
            Beside::Held => {
                frames.push(frame(OPEN_WALK, LIST, 0));
                frames.extend((0..STEPS.min(length)).map(|_| frame(NEXT_BACK, 0, 0)));
                frames.push(match length {
                    0 => frame(CLONE, LIST, OTHER),
                    _ => set(LIST, OTHER, length / 2),
                });
                frames.extend([frame(RELEASE, LIST, 0), frame(CLONE, OTHER, LIST)]);
                frames.push(frame(RELEASE, OTHER, 0));
            }
        }
        frames
    }
}
