//! Well-formed states made by random calls of eight parties.

use frames::numbers::*;
use frames::rng::Rng;
use frames::Frame;
use lent::Lent;

/// One call of a random party; a call that its slots, walks or nodes don't allow is refused and changes nothing.
pub fn call(lent: &mut Lent, rng: &mut Rng) {
    let party = rng.byte_below(PARTIES);
    let [slot, destination] = [SLOTS; 2].map(|slots| rng.byte_below(slots));
    let walk = rng.byte_below(WALKS);
    let own = |operation, slot, destination| Frame::of(party, operation, slot, destination);
    let frame = match rng.below(100) {
        0..=5 => Frame {
            index: 1 + rng.below(5) as u32,
            ..own(NEW, 0, destination)
        },
        6..=12 => own(CLONE, slot, destination),
        13..=22 => own(RELEASE, slot, 0),
        23..=35 => {
            let length = lent.version(usize::from(SLOTS * party + slot)).length;
            Frame {
                index: rng.below(length as usize + 1) as u32,
                value: rng.word(),
                ..own(SET, slot, destination)
            }
        }
        36..=45 => own(DROP_LAST, slot, destination),
        46..=70 => return pushes(lent, rng, own(PUSH_BACK, slot, destination)),
        71..=75 => own(OPEN_WALK, slot, walk),
        76..=84 => own(NEXT, walk, 0),
        85..=93 => own(NEXT_BACK, walk, 0),
        94..=95 => own(CLOSE_WALK, walk, 0),
        _ => {
            let to = (rng.byte_below(PARTIES), rng.byte_below(SLOTS));
            Frame::hand_over((party, slot), to)
        }
    };
    is_last_done(lent, &[frame]);
}

/// Several pushes, from slot to slot, so that lists grow; each source but the last is released.
fn pushes(lent: &mut Lent, rng: &mut Rng, mut push: Frame) {
    let most = [2, 12, 60, 300][rng.below(4)];
    let mut frames = vec![push];
    for _ in 0..=rng.below(most) {
        if !is_last_done(lent, &frames) {
            return;
        }
        let release = Frame::of(push.party, RELEASE, push.slot, 0);
        push = Frame {
            slot: push.destination,
            destination: push.slot,
            value: rng.word(),
            ..push
        };
        frames = vec![release, push];
    }
}

fn is_last_done(lent: &mut Lent, frames: &[Frame]) -> bool {
    let answers = lent.serve(frames).expect("the state is well-formed");
    answers.last().is_some_and(|answer| answer.number == DONE)
}
