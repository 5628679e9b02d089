//! `session mix`: frames that read one list, by index and by walks, to measure with.

use frames::grown::{grown, LIST};
use frames::numbers::*;
use frames::rng::Rng;
use frames::Frame;

const SEED: u64 = 1;
const LENGTH: u32 = 2_000;
const PARTY: u8 = 1;
const BITS: u32 = 5;

fn frame(operation: u8, slot: u8, destination: u8) -> Frame {
    Frame::of(PARTY, operation, slot, destination)
}

/// After the list is grown every second frame, about, gets an element at random; the others step two walks, each from both ends to its end and then anew.
pub fn mix(count: usize) -> Vec<u8> {
    let mut frames = grown(PARTY, BITS, LENGTH);
    frames.extend((0..WALKS).map(|walk| frame(OPEN_WALK, LIST, walk)));
    let mut left = [LENGTH; WALKS as usize];
    let mut rng = Rng::new(SEED);
    while frames.len() < count {
        let walk = rng.byte_below(WALKS);
        let left = &mut left[usize::from(walk)];
        if rng.one_in(2) {
            let index = rng.below(LENGTH as usize) as u32;
            frames.push(Frame {
                index,
                ..frame(GET, LIST, 0)
            });
        } else if *left > 0 {
            frames.push(frame(rng.of(&[NEXT, NEXT_BACK]), walk, 0));
            *left -= 1;
        } else {
            frames.push(frame(CLOSE_WALK, walk, 0));
            frames.push(frame(OPEN_WALK, LIST, walk));
            *left = LENGTH;
        }
    }
    frames.truncate(count);
    frames
        .iter()
        .flat_map(|frame| frame.line().into_bytes())
        .collect()
}

#[cfg(test)]
mod tests {
    use super::*;
    use crate::lines;

    #[test]
    fn every_frame_of_the_mix_is_done() {
        let mut frames = 0;
        lines::run(&mix(20_000), |_, answer, _| {
            assert_eq!(answer.number, DONE);
            frames += 1;
        });
        assert_eq!(frames, 20_000);
    }
}
