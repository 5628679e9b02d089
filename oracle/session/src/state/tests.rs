use super::*;
use crate::{lines, make};
use formulas::*;
use original::vector::probe::Shape;
use std::collections::HashSet;

fn frame(party: u8, operation: u8, slot: u8, destination: u8, index: u32, value: u32) -> Frame {
    Frame {
        party,
        operation,
        slot,
        destination,
        index,
        value,
    }
}

fn number(state: &mut State, frame: Frame) -> u8 {
    state.serve(&frame).number
}

fn places() -> impl Iterator<Item = Place> {
    let slots = |party| (0..SLOTS).map(move |slot| Place::Slot { party, slot });
    let walks = |party| (0..WALKS).map(move |walk| Place::Walk { party, walk });
    (0..u32::from(PARTIES)).flat_map(move |party| slots(party).chain(walks(party)))
}

fn nodes_reached(state: &State) -> usize {
    let live = places().filter(|place| state.is_live(*place));
    let nodes: HashSet<usize> = live
        .flat_map(|place| Shape::of(state.list(place)).into_addresses())
        .collect();
    nodes.len()
}

#[test]
fn live_nodes_are_those_reached() {
    lines::run(&make::make(5, 3_000), |_, _, state| {
        assert_eq!(state.free_nodes(), POOL - nodes_reached(state));
    });
}

/// Document 01's fresh and charge, of the source's bits and length.
fn cost(frame: &Frame, bits: u32, length: u32) -> (u32, u32) {
    match frame.operation {
        SET => (set_fresh(bits, length), set_charge(bits, length)),
        PUSH_BACK => (push_fresh(bits, length), push_charge(bits, length)),
        DROP_LAST => (drop_fresh(bits, length), drop_charge(bits, length)),
        _ => (0, 0),
    }
}

#[test]
fn costs_are_those_of_document_01() {
    let input = make::make(6, 6_000);
    let mut state = State::fresh(POOL);
    let (mut just_met, mut refused_by_charge_alone) = (0, 0);
    for frame in lines::lines(&input).filter_map(Frame::of_line) {
        let free = state.free_nodes() as u32;
        let source = Place::Slot {
            party: u32::from(frame.party),
            slot: frame.slot,
        };
        let edits = matches!(frame.operation, SET | PUSH_BACK | DROP_LAST);
        let edited = (edits && source.is_in_range() && state.is_live(source)).then(|| {
            let list = state.list(source);
            (
                u32::from(original::vector::probe::bits(list)),
                list.len() as u32,
            )
        });
        let answer = state.serve(&frame);
        let Some((bits, length)) = edited else {
            continue;
        };
        match answer.number {
            DONE => {
                let (fresh, charge) = cost(&frame, bits, length);
                assert_eq!(u32::from(answer.fresh), fresh, "{frame:?}");
                assert_eq!(free - state.free_nodes() as u32, fresh, "{frame:?}");
                assert!(charge <= free, "{frame:?}");
                just_met += usize::from(charge == free);
            }
            NO_NODES => {
                let (fresh, charge) = cost(&frame, bits, length);
                assert!(charge > free, "{frame:?}");
                refused_by_charge_alone += usize::from(fresh <= free);
            }
            _ => {}
        }
    }
    assert!(just_met > 0 && refused_by_charge_alone > 0);
}

#[test]
fn the_first_check_that_fails_answers() {
    let mut state = State::fresh(1);
    let cases = [
        (frame(8, 0x11, 8, 8, 8, 8), NO_PARTY),
        (frame(7, 0x11, 8, 8, 8, 8), NO_OPERATION),
        (frame(1, HAND_OVER, 8, 8, 8, 8), NOT_HOST),
        (frame(1, FREE_NODES, 8, 8, 8, 8), NOT_HOST),
        (frame(0, HAND_OVER, 0, 0, 256, 0), OUT_OF_RANGE),
        (frame(0, OPEN_WALK, 0, 2, 0, 0), OUT_OF_RANGE),
        (frame(0, NEXT, 2, 0, 0, 0), OUT_OF_RANGE),
        (frame(0, COMPARE, 0, 8, 0, 0), OUT_OF_RANGE),
        (frame(0, SET, 0, 0, 0, 0), SOURCE_EMPTY),
        (frame(0, NEW, 255, 0, 5, 0), DONE),
        (frame(0, NEW, 255, 0, 6, 0), ALREADY_LIVE),
        (frame(0, DROP_LAST, 0, 0, 0, 0), ALREADY_LIVE),
        (frame(0, HAND_OVER, 0, 0, 0, 0), ALREADY_LIVE),
        (frame(0, COMPARE, 0, 1, 0, 0), SOURCE_EMPTY),
        (frame(0, COMPARE, 0, 0, 0, 0), DONE),
        (frame(0, NEW, 255, 1, 6, 0), BAD_BITS),
        (frame(0, NEW, 255, 1, 261, 0), BAD_BITS),
        (frame(0, SET, 0, 1, 0, 0), NOTHING_THERE),
        (frame(0, DROP_LAST, 0, 1, 0, 0), NOTHING_THERE),
        (frame(0, PUSH_BACK, 0, 1, 0, 0), NO_NODES),
        (frame(0, NEW, 0, 1, 5, 0), NO_NODES),
        (frame(0, CLONE, 0, 1, 0, 0), DONE),
        (frame(0, FREE_NODES, 9, 9, 9, 9), DONE),
    ];
    for (frame, expected) in cases {
        assert_eq!(number(&mut state, frame), expected, "{frame:?}");
    }
}

/// The program's own pool is too small for this.
#[test]
fn a_push_at_the_length_limit_is_refused() {
    let mut state = State::fresh(65_536);
    assert_eq!(number(&mut state, frame(0, NEW, 0, 0, 5, 0)), DONE);
    for length in 0..LENGTH_LIMIT {
        let (slot, to) = ((length % 2) as u8, (1 - length % 2) as u8);
        let push = frame(0, PUSH_BACK, slot, to, 0, length);
        assert_eq!(number(&mut state, push), DONE);
        assert_eq!(number(&mut state, frame(0, RELEASE, slot, 0, 0, 0)), DONE);
    }
    assert_eq!(number(&mut state, frame(0, PUSH_BACK, 0, 1, 0, 0)), FULL);
    assert_eq!(number(&mut state, frame(0, DROP_LAST, 0, 1, 0, 0)), DONE);
    assert_eq!(number(&mut state, frame(0, PUSH_BACK, 1, 2, 0, 0)), DONE);
}

#[test]
fn a_walk_takes_each_element_once() {
    let mut state = State::fresh(POOL);
    state.serve(&frame(0, NEW, 0, 0, 1, 0));
    for value in 0..5 {
        let slot = value as u8;
        state.serve(&frame(0, PUSH_BACK, slot, slot + 1, 0, 10 + value));
    }
    state.serve(&frame(0, OPEN_WALK, 5, 1, 0, 0));
    for slot in 0..6 {
        state.serve(&frame(0, RELEASE, slot, 0, 0, 0));
    }
    let mut step = |operation| {
        let answer = state.serve(&frame(0, operation, 1, 0, 0, 0));
        (answer.number, answer.value)
    };
    assert_eq!(step(NEXT), (DONE, 10));
    assert_eq!(step(NEXT_BACK), (DONE, 14));
    assert_eq!(step(NEXT_BACK), (DONE, 13));
    assert_eq!(step(NEXT), (DONE, 11));
    assert_eq!(step(NEXT_BACK), (DONE, 12));
    for operation in [NEXT, NEXT_BACK, NEXT, NEXT_BACK] {
        assert_eq!(step(operation), (NOTHING_THERE, 0));
    }
    assert_eq!(step(CLOSE_WALK), (DONE, 0));
    assert_eq!(state.free_nodes(), POOL);
}

#[test]
fn compares_of_document_01() {
    let compared = |one: (u32, &[u32]), other: (u32, &[u32])| {
        let mut state = State::fresh(POOL);
        for (party_slot, (bits, values)) in [(0, one), (4, other)] {
            state.serve(&frame(0, NEW, 0, party_slot, bits, 0));
            for (slot, value) in (party_slot..).zip(values) {
                state.serve(&frame(0, PUSH_BACK, slot, slot + 1, 0, *value));
            }
        }
        let (one, other) = (one.1.len() as u8, 4 + other.1.len() as u8);
        state.serve(&frame(0, COMPARE, one, other, 0, 0)).value
    };
    assert_eq!(compared((1, &[1, 2]), (5, &[1, 2])), 0);
    assert_eq!(compared((5, &[]), (5, &[0])), u32::MAX);
    assert_eq!(compared((5, &[2]), (5, &[1, 9])), 1);
    assert_eq!(compared((5, &[0x8000_0000]), (5, &[1])), 1);
}
