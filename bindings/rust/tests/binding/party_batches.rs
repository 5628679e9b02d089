//! Batches of a party's handle: they do what its calls do, and no frame in them is another party's.

use jumperloft::{Answer, Batch, Frame, Party, Refusal, Slot, State, Walk};

use crate::frames::random_frame;
use crate::model::Model;
use crate::random::Random;
use crate::snapshot::Snapshot;

/// So many that none of these sessions uses them up.
const NODES: usize = 4_096;

/// Frames of any parties, run for one by its handle, answer as that party's own do.
fn forged_frames_are_its_own(seed: u64, run: fn(&mut State, Party, &[Frame]) -> Vec<Answer>) {
    let (mut state, mut model) = (State::new(NODES).unwrap(), Model::default());
    let mut random = Random::new(seed);
    for round in 0..60 {
        let party = Party::ALL[1 + round % 7];
        let frames: Vec<Frame> = (0..20).map(|_| random_frame(&mut random, &model)).collect();
        let answers = run(&mut state, party, &frames);
        let right = frames.iter().map(|frame| {
            let party = party.number();
            Answer::from(model.answer(Frame { party, ..*frame }, u32::MAX))
        });
        assert_eq!(answers, Vec::from_iter(right), "{party} {frames:?}");
    }
}

#[test]
fn frames_pushed_on_a_party_s_batch_are_its_own() {
    forged_frames_are_its_own(11, |state, party, frames| {
        let mut handle = state.party(party);
        let mut batch = handle.batch();
        let (first, rest) = frames.split_first().unwrap();
        batch.push(*first).extend(rest.iter().copied());
        batch.run().unwrap()
    });
}

#[test]
fn requests_run_by_a_party_s_handle_are_its_own() {
    forged_frames_are_its_own(12, |state, party, frames| {
        let mut requests = Batch::from_iter(frames.iter().copied()).as_bytes().to_vec();
        let mut room = vec![7; Answer::SIZE * frames.len()];
        let ran = state.party(party).run_into(&mut requests, &mut room);
        assert_eq!(ran, Ok(frames.len()));
        Answer::each_in(&room).map(Option::unwrap).collect()
    });
}

#[test]
fn a_plug_in_that_forges_its_party_gets_nowhere() {
    let mut state = State::new(64).unwrap();
    let ([host, author, plug_in, ..], [slot, other, ..]) = (Party::ALL, Slot::ALL);
    state
        .party(author)
        .batch()
        .new_vector(slot, 5)
        .open_walk(slot, Walk::ALL[0])
        .run()
        .unwrap();
    let before = Snapshot::of(state.lend().into_memory());
    let forged = [
        Frame::release(author, slot),
        Frame::close_walk(author, Walk::ALL[0]),
        Frame::push_back(author, slot, other, 7),
        Frame::hand_over(author, slot, plug_in, slot),
        Frame::free_nodes(),
        Frame::clone_slot(host, slot, other),
    ];
    let mut handle = state.party(plug_in);
    let mut batch = handle.batch();
    batch.extend(forged);
    let refusals: Vec<_> = batch
        .run()
        .unwrap()
        .into_iter()
        .map(|answer| answer.result().err())
        .collect();
    let (empty, host_only) = (Some(Refusal::EmptySource), Some(Refusal::HostOnly));
    assert_eq!(refusals, [empty, empty, empty, host_only, host_only, empty]);
    assert_eq!(Snapshot::of(state.lend().into_memory()), before);
}

#[test]
fn frames_stay_in_a_batch_until_they_are_taken_out() {
    let mut state = State::new(64).unwrap();
    let mut handle = state.party(Party::ALL[1]);
    let mut batch = handle.batch();
    assert_eq!(batch.run(), Ok(vec![]));
    batch.new_vector(Slot::ALL[0], 5);
    let fresh = batch.run().unwrap()[0].result();
    assert_eq!(fresh.map(|served| served.fresh), Ok(1));
    let again = batch.run().unwrap()[0].result();
    assert_eq!(again, Err(Refusal::LiveTarget));
    batch.clear();
    assert!(batch.frames().is_empty());
    assert_eq!(batch.run(), Ok(vec![]));
}

#[test]
fn requests_that_are_refused_as_a_whole_change_nothing() {
    let mut state = State::new(64).unwrap();
    let before = Snapshot::of(state.lend().into_memory());
    let mut handle = state.party(Party::ALL[1]);
    let mut requests = Frame::new_vector(Party::ALL[1], Slot::ALL[0], 5).to_bytes();
    let mut room = [7; Answer::SIZE];
    assert_eq!(
        handle.run_into(&mut requests[1..], &mut room),
        Err(Refusal::Ragged)
    );
    assert_eq!(
        handle.run_into(&mut requests, &mut room[1..]),
        Err(Refusal::NoRoom)
    );
    assert_eq!(room, [7; Answer::SIZE]);
    assert_eq!(Snapshot::of(state.lend().into_memory()), before);
}
