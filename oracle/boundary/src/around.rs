//! Frames of eight parties around lists of one length: edits that cross it, reads at its edges, steps of walks that stay open.

use formulas::{degree, height};
use frames::grown::LIST;
use frames::numbers::*;
use frames::rng::Rng;
use frames::Frame;
use session::choice;
use session::state::State;

/// The walk of each party that is opened on the list first and never closed.
pub const KEPT_WALK: u8 = 0;
const OTHER_WALK: u8 = 1;
/// A list that is longer or shorter by more is mostly released.
const NEAR: u32 = 3;

const CALLS: [u8; 36] = [
    PUSH_BACK, PUSH_BACK, PUSH_BACK, PUSH_BACK, DROP_LAST, DROP_LAST, DROP_LAST, DROP_LAST, SET,
    SET, SET, GET, GET, GET, GET, NEXT, NEXT, NEXT, NEXT_BACK, NEXT_BACK, NEXT_BACK, OPEN_WALK,
    OPEN_WALK, CLOSE_WALK, COMPARE, RELEASE, RELEASE, RELEASE, HAND_OVER, HAND_OVER, CLONE, NEW,
    LENGTH, FIRST, LAST, FREE_NODES,
];

pub struct Around {
    pub rng: Rng,
    pub bits: u32,
    pub length: u32,
}

impl Around {
    pub fn frame(&mut self, state: &State) -> Frame {
        let party = self.rng.byte_below(PARTIES);
        let operation = self.operation(state, party);
        let mut frame = choice::frame(&mut self.rng, state, party, operation);
        match operation {
            CLOSE_WALK => frame.slot = OTHER_WALK,
            GET | SET => {
                let length = choice::length(state, party, frame.slot);
                frame.index = self.edge(length);
            }
            HAND_OVER if self.rng.one_in(2) => {
                frame.index = u32::from(HOST);
                frame.slot = LIST;
            }
            _ => {}
        }
        if self.is_far(state, &frame) && !self.rng.one_in(4) {
            frame.operation = RELEASE;
        }
        if frame.operation == RELEASE && (frame.party, frame.slot) == (HOST, LIST) {
            frame.operation = LENGTH;
        }
        frame
    }

    /// A release where nothing can be filled, mostly.
    fn operation(&mut self, state: &State, party: u8) -> u8 {
        let slots_taken = choice::slots(state, party, false).is_empty();
        match self.rng.of(&CALLS) {
            SET | PUSH_BACK | DROP_LAST | CLONE | NEW if slots_taken && !self.rng.one_in(6) => {
                RELEASE
            }
            operation => operation,
        }
    }

    fn is_far(&self, state: &State, frame: &Frame) -> bool {
        let edits = matches!(frame.operation, SET | PUSH_BACK | DROP_LAST | CLONE);
        edits && choice::length(state, frame.party, frame.slot).abs_diff(self.length) > NEAR
    }

    /// The ends, the length, one that is far beyond, and both sides of where the last node of a level begins.
    fn edge(&mut self, length: u32) -> u32 {
        let last = length.saturating_sub(1);
        let level = self.rng.below(height(self.bits, length) as usize + 1) as u32;
        let under_a_node = degree(self.bits).pow(level + 1);
        let begin = last - last % under_a_node;
        match self.rng.below(10) {
            0 => 0,
            1 => last,
            2 => length,
            3 => self.rng.word(),
            4 | 5 => begin,
            6 | 7 => begin.saturating_sub(1),
            _ => self.rng.below(length.max(1) as usize) as u32,
        }
    }
}
