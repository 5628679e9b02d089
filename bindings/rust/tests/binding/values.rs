//! The iterator from both ends, at the lengths where a leaf, a branch or what is taken ahead is full.

use std::collections::VecDeque;

use jumperloft::{Party, Refusal, Walk};

use crate::filled::filled;
use crate::random::Random;

const NODES: usize = 4_096;
const WALK: Walk = Walk::ALL[0];

#[test]
fn values_meet_in_the_middle() {
    let mut random = Random::new(7);
    for bits in 1..=5 {
        for length in [0, 1, 2, 31, 32, 33, 65, 255, 256, 257, 512, 513, 1_025] {
            let (mut state, slot) = filled(NODES, bits, length);
            let mut party = state.party(Party::ALL[1]);
            let mut values = party.values(slot, WALK).unwrap();
            let mut expected: VecDeque<u32> = (0..length).collect();
            let backward = random.below(4);
            for _ in 0..length + 3 {
                assert_eq!(values.len(), expected.len());
                let (said, right) = match random.below(4) < backward {
                    true => (values.next_back(), expected.pop_back()),
                    false => (values.next(), expected.pop_front()),
                };
                assert_eq!(said, right, "bits {bits}, length {length}");
            }
        }
    }
}

#[test]
fn a_dropped_iterator_closes_its_walk() {
    let (mut state, slot) = filled(NODES, 5, 100);
    let mut party = state.party(Party::ALL[1]);
    assert_eq!(party.values(slot, WALK).unwrap().nth(40), Some(40));
    assert_eq!(party.close_walk(WALK), Err(Refusal::EmptySource));
    party.release(slot).unwrap();
    assert_eq!(state.host().free_nodes(), Ok(NODES as u32));
}

#[test]
fn an_open_walk_is_refused_to_an_iterator_and_left_as_it_is() {
    let (mut state, slot) = filled(NODES, 5, 100);
    let mut party = state.party(Party::ALL[1]);
    party.open_walk(slot, WALK).unwrap();
    assert_eq!(party.next(WALK), Ok(0));
    assert_eq!(party.values(slot, WALK).err(), Some(Refusal::LiveTarget));
    assert_eq!(party.next(WALK), Ok(1));
}
