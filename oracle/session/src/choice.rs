//! Frames chosen from what is live, so that most of them are done.

use crate::places::Place;
use crate::state::State;
use frames::numbers::*;
use frames::rng::Rng;
use frames::Frame;

/// How often each operation is chosen, from 00 to 10.
const WEIGHTS: [usize; OPERATIONS] = [3, 4, 10, 3, 6, 8, 12, 7, 4, 7, 7, 3, 3, 3, 3, 3, 6];

pub fn operation(rng: &mut Rng) -> u8 {
    let mut at = rng.below(WEIGHTS.iter().sum());
    for (operation, weight) in (0..).zip(WEIGHTS) {
        if at < weight {
            return operation;
        }
        at -= weight;
    }
    unreachable!("it is below the sum of the weights")
}

/// Small values often, so that compared lists are often alike; and those where signed and unsigned differ.
pub fn value(rng: &mut Rng) -> u32 {
    const NOTED: [u32; 6] = [0, 1, 0x7FFF_FFFF, 0x8000_0000, 0x8000_0001, u32::MAX];
    match rng.below(4) {
        0 => rng.word(),
        1 => rng.of(&NOTED),
        _ => rng.below(3) as u32,
    }
}

/// Fields that are not set later are ignored, so they may hold anything.
pub fn blank(rng: &mut Rng, party: u8, operation: u8) -> Frame {
    let mut frame = Frame::default();
    if rng.one_in(3) {
        frame = Frame {
            slot: rng.byte(),
            destination: rng.byte(),
            index: rng.word(),
            value: rng.word(),
            ..frame
        };
    }
    Frame {
        party,
        operation,
        ..frame
    }
}

/// A frame of a party, which for the host's operations is the host. What has to be live is so if anything of its party is.
pub fn frame(rng: &mut Rng, state: &State, party: u8, operation: u8) -> Frame {
    let party = match operation {
        HAND_OVER | FREE_NODES => HOST,
        _ => party,
    };
    let mut frame = blank(rng, party, operation);
    match operation {
        NEW => {
            frame.destination = slot(rng, state, party, false);
            frame.index = 1 + rng.below(5) as u32;
        }
        NEXT | NEXT_BACK | CLOSE_WALK => frame.slot = walk(rng, state, party, true),
        HAND_OVER => hand_over(rng, state, &mut frame),
        FREE_NODES => {}
        _ => frame.slot = slot(rng, state, party, true),
    }
    match operation {
        CLONE | SET | PUSH_BACK | DROP_LAST => frame.destination = slot(rng, state, party, false),
        OPEN_WALK => frame.destination = walk(rng, state, party, false),
        COMPARE => frame.destination = slot(rng, state, party, true),
        _ => {}
    }
    if let SET | GET = operation {
        frame.index = index(rng, length(state, party, frame.slot));
    }
    if let SET | PUSH_BACK = operation {
        frame.value = value(rng);
    }
    frame
}

fn hand_over(rng: &mut Rng, state: &State, frame: &mut Frame) {
    let (from, to) = (rng.byte_below(PARTIES), rng.byte_below(PARTIES));
    frame.index = u32::from(from);
    frame.slot = slot(rng, state, from, true);
    frame.value = u32::from(to);
    frame.destination = slot(rng, state, to, false);
}

/// A slot that is live or isn't, as asked; any one if there is none such.
pub fn slot(rng: &mut Rng, state: &State, party: u8, live: bool) -> u8 {
    let slots = slots(state, party, live);
    if slots.is_empty() {
        rng.byte_below(SLOTS)
    } else {
        rng.of(&slots)
    }
}

pub fn slots(state: &State, party: u8, live: bool) -> Vec<u8> {
    let party = u32::from(party);
    let is_such = |slot: &u8| state.is_live(Place::Slot { party, slot: *slot }) == live;
    (0..SLOTS).filter(is_such).collect()
}

fn walk(rng: &mut Rng, state: &State, party: u8, open: bool) -> u8 {
    let walks = walks(state, party, open);
    if walks.is_empty() {
        rng.byte_below(WALKS)
    } else {
        rng.of(&walks)
    }
}

pub fn walks(state: &State, party: u8, open: bool) -> Vec<u8> {
    let party = u32::from(party);
    let is_such = |walk: &u8| state.is_live(Place::Walk { party, walk: *walk }) == open;
    (0..WALKS).filter(is_such).collect()
}

/// 0 for an empty slot.
pub fn length(state: &State, party: u8, slot: u8) -> u32 {
    let party = u32::from(party);
    let place = Place::Slot { party, slot };
    if state.is_live(place) {
        state.list(place).len() as u32
    } else {
        0
    }
}

/// The ends often; sometimes the length itself, where nothing is.
pub fn index(rng: &mut Rng, length: u32) -> u32 {
    match rng.below(12) {
        0 => length,
        1 | 2 => 0,
        3..=5 => length.saturating_sub(1),
        _ => rng.below(length.max(1) as usize) as u32,
    }
}
