//! A list grown by pushes, from slot to slot.

use crate::numbers::*;
use crate::Frame;

/// Where a grown list ends.
pub const LIST: u8 = 0;
const OTHER: u8 = 1;

/// What a grown list has at an index; no two are equal.
pub fn element(index: u32) -> u32 {
    index.wrapping_mul(2_654_435_761)
}

/// By way of the first two slots of a party, which are empty; each source is released.
pub fn grown(party: u8, bits: u32, length: u32) -> Vec<Frame> {
    let (mut from, mut to) = match length % 2 {
        0 => (LIST, OTHER),
        _ => (OTHER, LIST),
    };
    let mut frames = vec![Frame {
        index: bits,
        ..Frame::of(party, NEW, 0, from)
    }];
    for index in 0..length {
        frames.push(Frame {
            value: element(index),
            ..Frame::of(party, PUSH_BACK, from, to)
        });
        frames.push(Frame::of(party, RELEASE, from, 0));
        (from, to) = (to, from);
    }
    frames
}
