//! The calls that are tried on a scene, with their charges.

use crate::scenes::{frame, hand_over, set, Scene, CLONED, EMPTY};
use formulas::{drop_charge, push_charge, set_charge, NEW_CHARGE};
use frames::grown::LIST;
use frames::numbers::*;
use frames::Frame;

pub struct Call {
    pub frame: Frame,
    /// 0 for a call that is refused with another number.
    pub charge: u32,
}

pub fn calls(scene: &Scene) -> Vec<Call> {
    let Scene { bits, length, .. } = *scene;
    let last = length.saturating_sub(1);
    let mut calls = vec![
        (new_with(bits, EMPTY), NEW_CHARGE),
        (frame(PUSH_BACK, LIST, EMPTY), push_charge(bits, length)),
    ];
    if length > 0 {
        let charge = set_charge(bits, length);
        calls.extend([0, length / 2, last].map(|index| (set(LIST, EMPTY, index), charge)));
        calls.push((frame(DROP_LAST, LIST, EMPTY), drop_charge(bits, length)));
    } else {
        calls.push((frame(DROP_LAST, LIST, EMPTY), 0));
    }
    calls.extend(free_of_charge(length).map(|frame| (frame, 0)));
    calls.extend(refused_before(length).map(|frame| (frame, 0)));
    let call = |(frame, charge)| Call { frame, charge };
    calls.into_iter().map(call).collect()
}

fn new_with(bits: u32, destination: u8) -> Frame {
    Frame {
        index: bits,
        ..frame(NEW, 0, destination)
    }
}

fn free_of_charge(length: u32) -> impl Iterator<Item = Frame> {
    let last = length.saturating_sub(1);
    let gets = [0, length / 2, last, length].map(|index| Frame {
        index,
        ..frame(GET, LIST, 0)
    });
    let of_walks = [OPEN_WALK, NEXT, NEXT_BACK, CLOSE_WALK].map(|operation| {
        [0, 1].map(|walk| match operation {
            OPEN_WALK => frame(OPEN_WALK, LIST, walk),
            _ => frame(operation, walk, 0),
        })
    });
    let others = [RELEASE, LENGTH, FIRST, LAST].map(|operation| frame(operation, LIST, 0));
    let free_nodes = Frame {
        party: HOST,
        ..frame(FREE_NODES, 0, 0)
    };
    let sharing = [
        frame(CLONE, LIST, EMPTY),
        hand_over(3),
        frame(RELEASE, CLONED, 0),
    ];
    let compares = [LIST, CLONED, EMPTY].map(|other| frame(COMPARE, LIST, other));
    let all = gets.into_iter().chain(of_walks.into_iter().flatten());
    all.chain(others)
        .chain(sharing)
        .chain(compares)
        .chain([free_nodes])
}

/// Calls that would cost nodes, each wrong in a way that is told before 10.
fn refused_before(length: u32) -> impl Iterator<Item = Frame> {
    let edits = [SET, PUSH_BACK, DROP_LAST];
    let onto_itself = edits.map(|operation| frame(operation, LIST, LIST));
    let of_empty = edits.map(|operation| frame(operation, EMPTY, EMPTY));
    let out_of_range = edits.map(|operation| frame(operation, LIST, SLOTS));
    let news = [
        new_with(5, LIST),
        new_with(0, EMPTY),
        new_with(6, EMPTY),
        new_with(5, SLOTS),
    ];
    let beyond = [length, u32::MAX].map(|index| set(LIST, EMPTY, index));
    let all = onto_itself.into_iter().chain(of_empty).chain(out_of_range);
    all.chain(news).chain(beyond)
}
