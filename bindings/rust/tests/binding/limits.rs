//! What is refused at the limits: sizes, lengths, bits, and batches as a whole.

use jumperloft::{Answer, Batch, Frame, MOST_ELEMENTS, Party, Refusal, Slot, State, Walk};

use crate::filled::filled;

#[test]
fn a_state_has_1_to_65_536_nodes() {
    for nodes in [0, 65_537, usize::MAX] {
        assert_eq!(State::new(nodes).err(), Some(Refusal::IllFormed));
    }
    for nodes in [1, 65_536] {
        assert_eq!(
            State::new(nodes).unwrap().host().free_nodes(),
            Ok(nodes as u32)
        );
    }
}

#[test]
fn a_damaged_state_is_refused_until_it_is_mended() {
    let (mut state, slot) = filled(16, 5, 3);
    state.lend().into_memory().kinds[3] = 9;
    every_way_of_asking_is(Err(Refusal::IllFormed), &mut state, slot);
    state.lend().into_memory().kinds[3] = 0;
    every_way_of_asking_is(Ok(()), &mut state, slot);
}

fn every_way_of_asking_is(right: Result<(), Refusal>, state: &mut State, slot: Slot) {
    let mut requests = Frame::free_nodes().to_bytes();
    let batch = Batch::from_iter([Frame::free_nodes()]);
    let (party, other, walk) = (Party::ALL[1], Slot::ALL[7], Walk::ALL[0]);
    let mut room = [7; Answer::SIZE];
    assert_eq!(state.audit(), right);
    assert_eq!(state.run_into(&requests, &mut room).map(drop), right);
    assert_eq!(room == [7; Answer::SIZE], right.is_err());
    assert_eq!(state.run(&batch).map(drop), right);
    assert_eq!(state.ask(Frame::free_nodes()).map(drop), right);
    assert_eq!(state.host().free_nodes().map(drop), right);
    let mut party = state.party(party);
    assert_eq!(party.run_into(&mut requests, &mut room).map(drop), right);
    assert_eq!(party.batch().len(slot).run().map(drop), right);
    assert_eq!(party.values(slot, walk).map(drop), right);
    assert_eq!(party.len(slot).map(drop), right);
    assert_eq!(party.clone_slot(slot, other), right);
    assert_eq!(party.release(other), right);
}

#[test]
fn a_batch_is_checked_for_13_then_12_then_11() {
    let mut state = State::new(16).unwrap();
    state.lend().into_memory().kinds[3] = 9;
    assert_eq!(state.run_into(&[0; 13], &mut []), Err(Refusal::Ragged));
    assert_eq!(state.run_into(&[0; 12], &mut [0; 5]), Err(Refusal::NoRoom));
    assert_eq!(
        state.run_into(&[0; 12], &mut [0; 6]),
        Err(Refusal::IllFormed)
    );
    assert_eq!(state.run_into(&[], &mut []), Err(Refusal::IllFormed));
}

#[test]
fn a_list_has_at_most_32_768_elements() {
    let (mut state, slot) = filled(2_048, 5, MOST_ELEMENTS as u32 - 1);
    let mut party = state.party(Party::ALL[1]);
    let [_, _, full, more, ..] = Slot::ALL;
    assert_eq!(
        party.push_back(slot, full, 1).map(|edited| edited.fresh),
        Ok(3)
    );
    assert_eq!(party.len(full), Ok(32_768));
    assert_eq!(party.push_back(full, more, 1), Err(Refusal::Full));
}

#[test]
fn bits_are_1_to_5() {
    let mut state = State::new(16).unwrap();
    for (bits, slot) in (0..=6).zip(Slot::ALL) {
        let made = state.party(Party::HOST).new_vector(slot, bits);
        assert_eq!(made.is_ok(), (1..=5).contains(&bits));
        assert!(made.is_ok() || made == Err(Refusal::BadBits));
    }
}

#[test]
fn indices_values_and_bits_are_whole_words() {
    let (mut state, slot) = filled(64, 5, 3);
    let mut party = state.party(Party::ALL[1]);
    let other = Slot::ALL[5];
    // the low bytes of each, alone, would be an index or bits that are there
    for word in [1 << 8 | 1, 1 << 16 | 1, 1 << 24 | 1, u32::MAX << 8 | 1] {
        assert_eq!(party.get(slot, word), Err(Refusal::NothingThere));
        assert_eq!(party.set(slot, other, word, 1), Err(Refusal::NothingThere));
        assert_eq!(party.new_vector(other, word), Err(Refusal::BadBits));
        party.push_back(slot, other, word).unwrap();
        assert_eq!(party.last(other), Ok(word));
        party.release(other).unwrap();
        party.set(slot, other, 1, word).unwrap();
        assert_eq!(party.get(other, 1), Ok(word));
        party.release(other).unwrap();
    }
}
