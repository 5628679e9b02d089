//! Random calls of several parties against the plain table: every answer, every refusal and every fresh count.

use std::collections::HashSet;

use jumperloft::{Answer, Batch, Frame, Party, Refusal, Served, Slot, State, Walk};

use crate::frames::random_frame;
use crate::model::Model;
use crate::random::Random;
use crate::snapshot::Snapshot;

fn fresh(answer: Result<jumperloft::Edited, Refusal>) -> Result<Served, Refusal> {
    answer.map(|edited| Served {
        fresh: edited.fresh,
        value: 0,
    })
}

fn value(answer: Result<u32, Refusal>) -> Result<Served, Refusal> {
    answer.map(|value| Served { fresh: 0, value })
}

fn nothing(answer: Result<(), Refusal>) -> Result<Served, Refusal> {
    value(answer.map(|()| 0))
}

/// The frame by the method of its name, where its numbers can be written as arguments; otherwise as it is.
fn call(state: &mut State, frame: Frame) -> Result<Served, Refusal> {
    by_host(state, frame)
        .or_else(|| by_party(state, frame))
        .unwrap_or_else(|| state.ask(frame))
}

fn by_host(state: &mut State, frame: Frame) -> Option<Result<Served, Refusal>> {
    let party = |number: u32| Party::new(u8::try_from(number).ok()?).ok();
    match (frame.party, frame.operation) {
        (0, 0x0C) => {
            let (from, to) = (
                Slot::new(frame.slot).ok()?,
                Slot::new(frame.destination).ok()?,
            );
            Some(nothing(state.host().hand_over(
                party(frame.index)?,
                from,
                party(frame.value)?,
                to,
            )))
        }
        (0, 0x0D) => Some(value(state.host().free_nodes())),
        _ => None,
    }
}

fn by_party(state: &mut State, frame: Frame) -> Option<Result<Served, Refusal>> {
    let mut handle = state.party(Party::new(frame.party).ok()?);
    let slot = || Slot::new(frame.slot).ok();
    let to = || Slot::new(frame.destination).ok();
    let walk = || Walk::new(frame.slot).ok();
    Some(match frame.operation {
        0x00 => fresh(handle.new_vector(to()?, frame.index)),
        0x01 => nothing(handle.clone_slot(slot()?, to()?)),
        0x02 => nothing(handle.release(slot()?)),
        0x03 => value(handle.len(slot()?)),
        0x04 => value(handle.get(slot()?, frame.index)),
        0x05 => fresh(handle.set(slot()?, to()?, frame.index, frame.value)),
        0x06 => fresh(handle.push_back(slot()?, to()?, frame.value)),
        0x07 => fresh(handle.drop_last(slot()?, to()?)),
        0x08 => nothing(handle.open_walk(slot()?, Walk::new(frame.destination).ok()?)),
        0x09 => value(handle.next(walk()?)),
        0x0A => value(handle.next_back(walk()?)),
        0x0B => nothing(handle.close_walk(walk()?)),
        0x0E => value(handle.first(slot()?)),
        0x0F => value(handle.last(slot()?)),
        0x10 => value(
            handle
                .compare(slot()?, to()?)
                .map(|order| (order as i32) as u32),
        ),
        _ => return None,
    })
}

/// One seeded run; tells which refusals were met and the greatest length.
fn calls_agree(seed: u64, nodes: usize, calls: usize) -> (HashSet<Refusal>, usize) {
    let (mut state, mut model) = (State::new(nodes).unwrap(), Model::default());
    let (mut random, mut met, mut longest) = (Random::new(seed), HashSet::new(), 0);
    for number in 0..calls {
        let frame = random_frame(&mut random, &model);
        let which = format!("seed {seed}, call {number}: {frame:?}");
        let free = state.host().free_nodes().unwrap();
        let right = model.answer(frame, free);
        match right {
            Err(refusal) => {
                met.insert(refusal);
                let before = Snapshot::of(state.lend().into_memory());
                assert_eq!(call(&mut state, frame), right, "{which}");
                assert_eq!(Snapshot::of(state.lend().into_memory()), before, "{which}");
            }
            Ok(served) => {
                assert_eq!(call(&mut state, frame), right, "{which}");
                let now = state.host().free_nodes().unwrap();
                let gives_back = matches!(frame.operation, 0x02 | 0x0B);
                let spent = free - u32::from(served.fresh);
                assert!(now == spent || gives_back && now > spent, "{which}");
            }
        }
        let lengths = model.slots.values().map(|vector| vector.values.len());
        longest = lengths.max().unwrap_or(0).max(longest);
    }
    all_values_agree(&mut state, &model);
    (met, longest)
}

fn all_values_agree(state: &mut State, model: &Model) {
    for party in Party::ALL {
        for walk in Walk::ALL {
            let _ = state.party(party).close_walk(walk);
        }
        for slot in Slot::ALL {
            let expected = model.slots.get(&(party.number(), slot.number()));
            let mut handle = state.party(party);
            let values = handle.values(slot, Walk::ALL[0]).ok().map(Vec::from_iter);
            assert_eq!(values, expected.map(|vector| vector.values.clone()));
        }
    }
}

#[test]
fn calls_agree_with_the_plain_table() {
    let (mut met, mut longest) = (HashSet::new(), 0);
    for (seed, nodes) in [(1, 24), (2, 60), (3, 300), (4, 600)] {
        let (refusals, length) = calls_agree(seed, nodes, 2_500);
        met.extend(refusals);
        longest = longest.max(length);
    }
    let expected: HashSet<Refusal> = Refusal::ALL
        .into_iter()
        .filter(|refusal| refusal.number() <= 10 && *refusal != Refusal::Full)
        .collect();
    assert_eq!(met, expected, "all numbers but 9 are met on the way");
    assert!(longest > 64, "the longest list had {longest}");
}

#[test]
fn batches_agree_with_the_plain_table() {
    let (mut state, mut model) = (State::new(200).unwrap(), Model::default());
    let mut random = Random::new(5);
    for _ in 0..200 {
        let frames: Vec<Frame> = (0..random.below(30))
            .map(|_| random_frame(&mut random, &model))
            .collect();
        // the free nodes are asked for before each frame, as the table doesn't know them
        let batch: Batch = frames
            .iter()
            .flat_map(|frame| [Frame::free_nodes(), *frame])
            .collect();
        let answers = state.run(&batch).unwrap();
        assert_eq!(answers.len(), 2 * frames.len());
        for (frame, pair) in frames.iter().zip(answers.chunks(2)) {
            let free = pair[0].result().unwrap().value;
            assert_eq!(
                pair[1],
                Answer::from(model.answer(*frame, free)),
                "{frame:?}"
            );
        }
    }
    all_values_agree(&mut state, &model);
}
