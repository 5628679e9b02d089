//! Every slice that is handed to the library, between pages that nobody may touch: it stays within each slice, and one element too
//! few or too many in any of them is refused and nothing written.

use jumperloft::{Answer, Batch, Frame, Memory, Party, Refusal, Slot, State, StateRef, Walk};

use crate::filled::filled;
use crate::frames::random_frame;
use crate::guarded::{Guarded, GuardedState, Side};
use crate::model::Model;
use crate::random::Random;
use crate::snapshot::Snapshot;

const SIDES: [Side; 2] = [Side::Start, Side::End];
const SLICES: usize = 9;

#[derive(Clone, Copy, Debug)]
enum Misfit {
    OneShort,
    OneLong,
}

const MISFITS: [Misfit; 2] = [Misfit::OneShort, Misfit::OneLong];

fn resized<T: Copy>(values: &mut Vec<T>, misfit: Misfit) {
    let last = values.pop().unwrap();
    if let Misfit::OneLong = misfit {
        values.extend([last, last]);
    }
}

/// The same, but for one element in one of the nine slices.
fn misfitting(fitting: &Snapshot, slice: usize, misfit: Misfit) -> Snapshot {
    let mut held = fitting.clone();
    match slice {
        0 => resized(&mut held.kinds, misfit),
        1 => resized(&mut held.used, misfit),
        2 => resized(&mut held.counts, misfit),
        3 => resized(&mut held.cells, misfit),
        4 => resized(&mut held.order, misfit),
        5 => resized(&mut held.versions, misfit),
        6 => resized(&mut held.walk_numbers, misfit),
        7 => resized(&mut held.walk_nodes, misfit),
        _ => resized(&mut held.walk_indices, misfit),
    }
    held
}

/// Lends what is held, misfitting in each way, to a call that has to refuse it and leave it as it is.
fn refused_as_they_are(fitting: &Snapshot, refusal_of: fn(Memory<'_>) -> Option<Refusal>) {
    for side in SIDES {
        assert_eq!(refusal_of(GuardedState::of(fitting, side).memory()), None);
        for (slice, misfit) in (0..SLICES).flat_map(|slice| MISFITS.map(|misfit| (slice, misfit))) {
            let held = misfitting(fitting, slice, misfit);
            let mut lent = GuardedState::of(&held, side);
            let refusal = refusal_of(lent.memory());
            let which = format!("slice {slice}, {misfit:?}, {side:?}");
            assert_eq!(refusal, Some(Refusal::IllFormed), "{which}");
            assert_eq!(Snapshot::of(lent.memory()), held, "{which}");
        }
    }
}

/// A state with lists and an open walk.
fn in_use(nodes: usize) -> State {
    let (mut state, slot) = filled(nodes, 1, 9);
    let mut party = state.party(Party::ALL[1]);
    party.open_walk(slot, Walk::ALL[1]).unwrap();
    party.next(Walk::ALL[1]).unwrap();
    state
}

#[test]
fn form_refuses_a_slice_one_short_or_one_long() {
    for nodes in [2, 40] {
        refused_as_they_are(&Snapshot::of_sevens(nodes), |memory| {
            StateRef::form(memory).err()
        });
    }
}

#[test]
fn a_batch_refuses_a_slice_one_short_or_one_long() {
    let held = Snapshot::of(in_use(40).lend().into_memory());
    refused_as_they_are(&held, |memory| StateRef::resume(memory).err());
}

#[test]
fn every_call_stays_within_its_slices() {
    for (nodes, side) in [1, 40, 300]
        .into_iter()
        .flat_map(|n| SIDES.map(|side| (n, side)))
    {
        let mut plain = State::new(nodes).unwrap();
        let mut lent = GuardedState::of(&Snapshot::of_sevens(nodes), side);
        StateRef::form(lent.memory()).unwrap();
        let (mut random, mut model) = (Random::new(nodes as u64), Model::default());
        for _ in 0..300 {
            let free = plain.host().free_nodes().unwrap();
            let frame = random_frame(&mut random, &model);
            let right = Answer::from(model.answer(frame, free));
            assert_eq!(Answer::from(plain.ask(frame)), right);
            let requests = Guarded::of(&frame.to_bytes(), side);
            let mut room = Guarded::of(&[7; Answer::SIZE], side);
            let mut state = StateRef::resume(lent.memory()).unwrap();
            assert_eq!(state.run_into(&requests, &mut room), Ok(1));
            assert_eq!(*room, right.to_bytes(), "{frame:?}");
        }
        // cells of free nodes hold anything
        let held = [
            Snapshot::of(lent.memory()),
            Snapshot::of(plain.lend().into_memory()),
        ];
        let [lent, plain] = held.map(|held| Snapshot {
            cells: vec![],
            ..held
        });
        assert_eq!(lent, plain);
    }
}

/// Three frames, each of which would change the state.
fn three_frames() -> Batch {
    let [empty, one, two, ..] = Slot::ALL;
    let party = Party::ALL[2];
    [
        Frame::new_vector(party, empty, 5),
        Frame::push_back(party, empty, one, 7),
        Frame::push_back(party, one, two, 9),
    ]
    .into_iter()
    .collect()
}

#[test]
fn requests_one_short_or_one_long_are_refused() {
    let batch = three_frames();
    for (side, misfit) in SIDES
        .into_iter()
        .flat_map(|side| MISFITS.map(|m| (side, m)))
    {
        let mut state = in_use(40);
        let before = Snapshot::of(state.lend().into_memory());
        let mut requests = batch.as_bytes().to_vec();
        resized(&mut requests, misfit);
        let mut room = Guarded::of(&[7; 4 * Answer::SIZE], side);
        let said = state.run_into(&Guarded::of(&requests, side), &mut room);
        assert_eq!(said, Err(Refusal::Ragged), "{misfit:?}, {side:?}");
        assert_eq!(*room, [7; 4 * Answer::SIZE]);
        assert_eq!(Snapshot::of(state.lend().into_memory()), before);
    }
}

#[test]
fn a_room_one_short_is_refused_and_one_long_is_left_as_it_is() {
    let batch = three_frames();
    let fitting = Answer::SIZE * batch.len();
    for side in SIDES {
        let mut state = in_use(40);
        let before = Snapshot::of(state.lend().into_memory());
        let requests = Guarded::of(batch.as_bytes(), side);
        let mut short = Guarded::of(&vec![7; fitting - 1], side);
        assert_eq!(state.run_into(&requests, &mut short), Err(Refusal::NoRoom));
        assert_eq!(*short, vec![7; fitting - 1]);
        assert_eq!(Snapshot::of(state.lend().into_memory()), before);

        let mut long = Guarded::of(&vec![7; fitting + 1], side);
        assert_eq!(state.run_into(&requests, &mut long), Ok(3));
        let fresh = [0, 1, 0, 0, 0, 0];
        assert_eq!(*long, *[&fresh[..], &fresh, &fresh, &[7]].concat());
    }
}

#[test]
fn an_ill_formed_state_is_left_as_it_is() {
    let mut held = Snapshot::of(in_use(40).lend().into_memory());
    held.counts[0] += 1;
    for side in SIDES {
        let mut lent = GuardedState::of(&held, side);
        assert_eq!(
            StateRef::resume(lent.memory()).err(),
            Some(Refusal::IllFormed)
        );
        assert_eq!(Snapshot::of(lent.memory()), held);
    }
}
