//! Frames that are mostly refused, and lines that aren't frames.

use crate::choice;
use crate::state::State;
use frames::numbers::*;
use frames::rng::Rng;
use frames::Frame;

const BYTES: [u8; 12] = [0, 1, 2, 7, 8, 9, 15, 16, 17, 0x7F, 0x80, 0xFF];
/// Some are in range if only their last byte or half is looked at.
const WORDS: [u32; 18] = [
    0,
    1,
    5,
    6,
    7,
    8,
    31,
    32,
    256,
    257,
    261,
    32_767,
    32_768,
    0x0001_0000,
    0x0001_0005,
    0x7FFF_FFFF,
    0x8000_0001,
    u32::MAX,
];

/// A frame that would mostly be done, with one to three fields changed; two wrong fields show the order of the checks.
pub fn spoiled(rng: &mut Rng, state: &State) -> Frame {
    let party = rng.byte_below(PARTIES);
    let operation = choice::operation(rng);
    let mut frame = choice::frame(rng, state, party, operation);
    for _ in 0..=rng.below(3) {
        change(rng, state, &mut frame);
    }
    frame
}

fn change(rng: &mut Rng, state: &State, frame: &mut Frame) {
    let byte = match rng.below(3) {
        0 => rng.byte(),
        _ => rng.of(&BYTES),
    };
    let own = frame.party.min(PARTIES - 1);
    match rng.below(10) {
        0 => frame.party = byte,
        1 => frame.operation = byte,
        2 => frame.slot = byte,
        3 => frame.destination = byte,
        4 => frame.index = rng.of(&WORDS),
        5 => frame.value = rng.of(&WORDS),
        6 => frame.slot = choice::slot(rng, state, own, false),
        7 => frame.destination = choice::slot(rng, state, own, true),
        8 => frame.destination = frame.slot,
        _ => {
            let slot = frame.slot.min(SLOTS - 1);
            frame.index = choice::length(state, own, slot) + rng.below(2) as u32;
        }
    }
}

/// New, in a slot that is empty, with bits that no list can have.
pub fn bad_bits(rng: &mut Rng, state: &State, party: u8) -> Frame {
    let mut frame = choice::frame(rng, state, party, NEW);
    frame.index = rng.of(&[0, 6, 7, 8, 32, 255, 256, 261, 0x0500_0000, u32::MAX]);
    frame
}

/// One slot, walk or named party, which the operation uses or not, beyond the last.
pub fn out_of_range(rng: &mut Rng, state: &State, party: u8) -> Frame {
    let operation = rng.byte_below(OPERATIONS as u8);
    let mut frame = choice::frame(rng, state, party, operation);
    let byte = rng.of(&[2, 8, 8, 9, 16, 0x80, 0xFF]);
    let word = rng.of(&[8, 8, 9, 256, 0x0001_0000, 0x0100_0000, u32::MAX]);
    let fields = if operation == HAND_OVER { 4 } else { 2 };
    match rng.below(fields) {
        0 => frame.slot = byte,
        1 => frame.destination = byte,
        2 => frame.index = word,
        _ => frame.value = word,
    }
    frame
}

/// The host's operations, asked by another.
pub fn not_host(rng: &mut Rng, state: &State) -> Frame {
    let operation = rng.of(&[HAND_OVER, FREE_NODES]);
    let frame = choice::frame(rng, state, HOST, operation);
    let party = 1 + rng.byte_below(PARTIES - 1);
    Frame { party, ..frame }
}

pub fn any_bytes(rng: &mut Rng) -> Frame {
    Frame::of_bytes(std::array::from_fn(|_| rng.byte()))
}

/// One change to a frame's line, with its line feed, after which it isn't a frame.
pub fn no_frame(rng: &mut Rng, frame: &Frame) -> Vec<u8> {
    const NO_DIGITS: [u8; 13] = *b"/:@G`ag .\r\t\0\xFF";
    let mut line = frame.line().into_bytes();
    let digits = line.len() - 1;
    match rng.below(7) {
        0 => line = b"\n".to_vec(),
        1 => drop(line.drain(..=rng.below(2))),
        2 => drop(line.drain(..=rng.below(digits - 1))),
        3 => line.insert(rng.below(digits + 1), b'0'),
        4 => line = [&line[..digits], &line[..]].concat(),
        5 => line[rng.below(digits)] = rng.of(&NO_DIGITS),
        // lower case, of one letter at least
        _ => {
            line[0] = b'A';
            line.make_ascii_lowercase();
        }
    }
    assert_eq!(Frame::of_line(&line), None, "{line:?}");
    line
}
