//! Refusals that the original does not have; document 01 decides.

use crate::ours::Ours;
use crate::subject::Subject;
use formulas::{height, nodes, LENGTH_LIMIT};
use frames::grown::{element, grown, LIST};
use frames::numbers::*;
use frames::{Answer, Frame};

/// Frames of a batch while a list grows to the limit.
const FRAMES_TO_GROW: usize = 2_048;

/// Prints and answers whether all is right.
pub fn refusals() -> bool {
    let mut wrong = bad_bits();
    for (bits, pool) in [(1, 65_536), (5, 65_536), (5, 1_061)] {
        wrong.extend(full(bits, pool));
    }
    for what in &wrong {
        println!("refusals: {what}");
    }
    println!("refusals: 7, 8 and 9, {} wrong", wrong.len());
    wrong.is_empty()
}

fn frame(operation: u8, slot: u8, destination: u8) -> Frame {
    Frame::of(HOST, operation, slot, destination)
}

fn new(destination: u8, bits: u32) -> Frame {
    Frame {
        index: bits,
        ..frame(NEW, 0, destination)
    }
}

/// A refused call writes nothing.
fn refused(ours: &mut Ours, call: Frame, number: u8) -> Option<String> {
    let before = ours.lent.clone();
    let answers = ours.batch(&[call]);
    let unchanged = ours.lent == before;
    let right = answers == [Answer::refused(number)] && unchanged;
    (!right).then(|| format!("{call:?}: {answers:?}, not {number}; state unchanged: {unchanged}"))
}

/// Bits are looked at before nodes are.
fn bad_bits() -> Vec<String> {
    let mut wrong = Vec::new();
    for nodes in [1, 2] {
        let mut ours = Ours::with_pool(nodes);
        ours.done(&[new(0, 5)]);
        for bits in [0, 6, 7, 32, 255, 256, 261, u32::MAX] {
            wrong.extend(refused(&mut ours, new(1, bits), BAD_BITS));
        }
        // with no free node either: what isn't there comes first
        for operation in [DROP_LAST, SET] {
            wrong.extend(refused(&mut ours, frame(operation, 0, 1), NOTHING_THERE));
        }
        wrong.extend(ours.flaws);
    }
    wrong
}

/// Push at the length limit, with nodes free and with none.
fn full(bits: u32, pool: usize) -> Vec<String> {
    let mut ours = Ours::with_pool(pool);
    for frames in grown(HOST, bits, LENGTH_LIMIT).chunks(FRAMES_TO_GROW) {
        ours.batch(frames);
    }
    let mut wrong = Vec::new();
    let (free, wanted) = (
        ours.lent.free_nodes(),
        pool - nodes(bits, LENGTH_LIMIT) as usize,
    );
    if free != wanted {
        wrong.push(format!("{free} nodes free at the limit, not {wanted}"));
    }
    wrong.extend(refused(&mut ours, frame(PUSH_BACK, LIST, 1), FULL));
    wrong.extend(misread(&mut ours, bits));
    let edits = [
        frame(DROP_LAST, LIST, 1),
        frame(RELEASE, LIST, 0),
        frame(PUSH_BACK, 1, 2),
    ];
    // a path of the longest list
    let path = height(bits, LENGTH_LIMIT) as u8 + 1;
    let answers = ours.each(&edits);
    if answers != [path, 0, path].map(|fresh| Answer::done(fresh, 0)) {
        wrong.push(format!("bits {bits}: drop, release, push: {answers:?}"));
    }
    wrong.extend(refused(&mut ours, frame(PUSH_BACK, 2, 3), FULL));
    if pool < 2_000 {
        fill_up(&mut ours);
        wrong.extend(refused(&mut ours, frame(PUSH_BACK, 2, 3), FULL));
    }
    wrong.extend(ours.flaws);
    wrong
}

fn misread(ours: &mut Ours, bits: u32) -> Vec<String> {
    let get = |index| Frame {
        index,
        ..frame(GET, LIST, 0)
    };
    let gets: Vec<Frame> = (0..LENGTH_LIMIT).map(get).collect();
    let wanted = (0..LENGTH_LIMIT).map(|index| Answer::done(0, element(index)));
    let answers = ours.batch(&gets).into_iter().zip(wanted).zip(0..);
    let wrong = answers.filter(|((given, wanted), _)| given != wanted);
    wrong
        .map(|(_, index)| format!("bits {bits}: get at {index}"))
        .collect()
}

/// Lists of one node in the slots of the parties from 1 take all that is free.
fn fill_up(ours: &mut Ours) {
    let slots = (1..PARTIES).flat_map(|party| (0..SLOTS).map(move |slot| (party, slot)));
    let fillers = slots.map(|(party, slot)| Frame {
        party,
        ..new(slot, 5)
    });
    let fillers: Vec<Frame> = fillers.take(ours.lent.free_nodes()).collect();
    ours.done(&fillers);
    assert_eq!(ours.lent.free_nodes(), 0, "nodes left");
}
