//! Document 01's example and figures.

use std::cmp::Ordering;

use jumperloft::{Answer, Batch, Frame, Party, Slot, State};

use crate::filled::filled;

const REQUESTS: [u128; 8] = [
    0x010000000000000500000000,
    0x010600010000000000000007,
    0x010401000000000000000000,
    0x010401000000000100000000,
    0x020301000000000000000000,
    0x010800000000000000000000,
    0x010A00000000000000000000,
    0x000D00000000000000000000,
];

const ANSWERS: [u64; 8] = [
    0x000100000000,
    0x000100000000,
    0x000000000007,
    0x080000000000,
    0x050000000000,
    0x000000000000,
    0x080000000000,
    0x0000000000FE,
];

#[test]
fn the_example_answers_as_written() {
    let frame = |request: u128| {
        let [_, _, _, _, bytes @ ..] = request.to_be_bytes();
        Frame::from_bytes(bytes)
    };
    let answer = |answer: u64| {
        let [_, _, bytes @ ..] = answer.to_be_bytes();
        Answer::from_bytes(bytes).unwrap()
    };
    let batch: Batch = REQUESTS.into_iter().map(frame).collect();
    let answers = State::new(256).unwrap().run(&batch).unwrap();
    assert_eq!(answers, ANSWERS.map(answer));
}

#[test]
fn drops_cost_what_is_written() {
    for (length, fresh) in [(33, 0), (34, 2), (65, 1), (1_025, 0), (1, 1)] {
        let (mut state, slot) = filled(256, 5, length);
        let dropped = state.party(Party::ALL[1]).drop_last(slot, Slot::ALL[7]);
        assert_eq!(
            dropped.map(|edited| edited.fresh),
            Ok(fresh),
            "length {length}"
        );
    }
}

/// Bits and values.
type Vector = (u32, &'static [u32]);

/// A vector in the last of three slots.
fn made(state: &mut State, (bits, values): Vector, slots: [Slot; 3]) -> Slot {
    let mut host = state.party(Party::HOST);
    let [mut from, mut to, last] = slots;
    host.new_vector(from, bits).unwrap();
    for value in values {
        host.push_back(from, to, *value).unwrap();
        host.release(from).unwrap();
        (from, to) = (to, from);
    }
    host.clone_slot(from, last).unwrap();
    last
}

#[test]
fn comparisons_answer_what_is_written() {
    let [a, b, c, d, e, f, ..] = Slot::ALL;
    let cases: [(Vector, Vector, Ordering); 3] = [
        ((1, &[1, 2]), (5, &[1, 2]), Ordering::Equal),
        ((5, &[]), (5, &[0]), Ordering::Less),
        ((5, &[2]), (5, &[1, 9]), Ordering::Greater),
    ];
    for (vector, other, order) in cases {
        let mut state = State::new(64).unwrap();
        let slot = made(&mut state, vector, [a, b, c]);
        let other = made(&mut state, other, [d, e, f]);
        assert_eq!(state.party(Party::HOST).compare(slot, other), Ok(order));
    }
}
