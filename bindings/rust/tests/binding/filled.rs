//! A long list, by one batch.

use jumperloft::{Batch, Frame, Party, Slot, State};

/// A state whose party 1 has the numbers from 0 on, so many of them; and the slot that they are in.
pub fn filled(nodes: usize, bits: u32, length: u32) -> (State, Slot) {
    let mut state = State::new(nodes).unwrap();
    let (party, [mut from, mut to, ..]) = (Party::ALL[1], Slot::ALL);
    let mut batch = Batch::new();
    batch.push(Frame::new_vector(party, from, bits));
    for value in 0..length {
        batch
            .push(Frame::push_back(party, from, to, value))
            .push(Frame::release(party, from));
        (from, to) = (to, from);
    }
    let answers = state.run(&batch).unwrap();
    assert!(answers.iter().all(|answer| answer.result().is_ok()));
    (state, from)
}
