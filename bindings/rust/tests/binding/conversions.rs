//! What numbers turn into, and how things show themselves.

use std::fmt::Debug;

use jumperloft::{
    Answer, Batch, Frame, LentState, Memory, NoRefusal, Operation, Party, Refusal, Served, Sizes,
    Slot, State, Walk,
};

#[test]
fn refusals_are_1_to_13_and_nothing_else_is() {
    for number in (0..=300).chain([1 << 8 | 1, 1 << 16 | 1, 1 << 24 | 1, u32::MAX]) {
        let refusal = Refusal::try_from(number);
        assert_eq!(
            refusal.map(u32::from),
            if (1..=13).contains(&number) {
                Ok(number)
            } else {
                Err(NoRefusal(number))
            }
        );
        let Ok(byte) = u8::try_from(number) else {
            continue;
        };
        assert_eq!(Refusal::try_from(byte), refusal);
        assert_eq!(Refusal::from_number(byte), refusal.ok());
        assert_eq!(
            refusal.map(u8::from).ok(),
            (1..=13).contains(&byte).then_some(byte)
        );
    }
}

#[test]
fn operations_are_0_to_16_and_nothing_else_is() {
    for number in 0..=u8::MAX {
        let right = if number <= 16 {
            Ok(number)
        } else {
            Err(Refusal::NoOperation)
        };
        assert_eq!(Operation::try_from(number).map(Operation::number), right);
    }
}

#[test]
fn parties_slots_and_walks_are_shown_as_their_numbers() {
    for number in 0..8 {
        assert_eq!(Party::new(number).unwrap().to_string(), number.to_string());
        assert_eq!(
            format!("{:>3}", Slot::new(number).unwrap()),
            format!("{number:>3}")
        );
    }
    assert_eq!(Walk::ALL.map(|walk| walk.to_string()), ["0", "1"]);
}

#[test]
fn parties_slots_and_walks_are_all_numbers_in_range_and_no_others() {
    for number in 0..=u8::MAX {
        let at = usize::from(number);
        assert_eq!(Party::new(number).ok(), Party::ALL.get(at).copied());
        assert_eq!(Slot::new(number).ok(), Slot::ALL.get(at).copied());
        assert_eq!(Walk::new(number).ok(), Walk::ALL.get(at).copied());
        assert_eq!(Party::try_from(number), Party::new(number));
        assert!(Slot::new(number).map_or(number > 7, |slot| u8::from(slot) == number));
        assert!(Walk::new(number).map_or(number > 1, |walk| walk.number() == number));
    }
    assert_eq!((Party::HOST.number(), Party::ALL[7].number()), (0, 7));
    assert_eq!(Party::new(8), Err(Refusal::NoParty));
    assert_eq!(Slot::new(8), Err(Refusal::OutOfRange));
    assert_eq!(Walk::new(2), Err(Refusal::OutOfRange));
}

#[test]
fn refusals_are_shown_by_reason_and_number() {
    let mut shown: Vec<String> = Refusal::ALL.iter().map(Refusal::to_string).collect();
    for (text, refusal) in shown.iter().zip(Refusal::ALL) {
        assert!(text.ends_with(&format!("({})", refusal.number())), "{text}");
    }
    shown.sort_unstable();
    shown.dedup();
    assert_eq!(shown.len(), Refusal::ALL.len());
}

fn shown(thing: impl Debug) -> String {
    format!("{thing:?}")
}

#[test]
fn a_state_is_shown_in_short() {
    let mut state = State::new(Memory::MOST_NODES).unwrap();
    let mut host = state.party(Party::HOST);
    let (slot, walk) = (Slot::ALL[0], Walk::ALL[0]);
    host.batch()
        .new_vector(slot, 5)
        .push_back(slot, Slot::ALL[1], 7)
        .run()
        .unwrap();
    let values = shown(host.values(Slot::ALL[1], walk).unwrap());
    assert!(values.contains("left: 1") && values.len() < 200, "{values}");
    assert!(shown(&host).len() < 200 && shown(host.batch().len(slot)).len() < 300);
    assert_eq!(shown(&state), "State { nodes: 65536, live_slots: 2, .. }");
    assert_eq!(
        shown(state.lend()),
        "StateRef { nodes: 65536, live_slots: 2, .. }"
    );
    assert_eq!(
        shown(state.lend().into_memory()),
        "Memory { nodes: 65536, live_slots: 2, .. }"
    );
    assert_eq!(
        shown(LentState::from(state.lend())),
        "LentState { nodes: 65536, .. }"
    );
}

#[test]
fn a_batch_is_its_frames() {
    let frames = [Frame::free_nodes(), Frame::len(Party::ALL[1], Slot::ALL[2])];
    let mut batch = Batch::from_iter(frames);
    assert_eq!(Vec::from_iter(&batch), frames);
    assert_eq!(Vec::from_iter(batch.iter().rev()), [frames[1], frames[0]]);
    assert_eq!(
        (batch.iter().len(), batch.len(), batch.is_empty()),
        (2, 2, false)
    );
    assert_eq!(Batch::try_from(batch.as_bytes()), Ok(batch.clone()));
    assert_eq!(shown(&batch), shown(frames));
    batch.extend(&batch.clone());
    assert_eq!(batch.len(), 4);
    batch.clear();
    assert_eq!(batch, Batch::with_capacity(1));
}

#[test]
fn requests_are_whole_frames() {
    let bytes = [0; 3 * Frame::SIZE];
    for length in 0..=bytes.len() {
        let frames = Batch::try_from(&bytes[..length]).map(|batch| batch.len());
        let whole = length % Frame::SIZE == 0;
        assert_eq!(
            frames,
            if whole {
                Ok(length / Frame::SIZE)
            } else {
                Err(Refusal::Ragged)
            }
        );
    }
}

#[test]
fn an_answer_s_bytes_come_back() {
    let served = [0, 1, 15, 255]
        .into_iter()
        .flat_map(|fresh| [0, 0x0102_0304, u32::MAX].map(|value| Ok(Served { fresh, value })));
    for result in served.chain(Refusal::ALL.map(Err)) {
        let answer = Answer::from(result);
        assert_eq!(Answer::from_bytes(answer.to_bytes()), Some(answer));
        assert_eq!(answer.result(), result);
    }
    let served = Answer::from(Ok(Served {
        fresh: 9,
        value: 0x0102_0304,
    }));
    assert_eq!(served.to_bytes(), [0, 9, 1, 2, 3, 4]);
    assert_eq!(
        Answer::from(Err(Refusal::Full)).to_bytes(),
        [9, 0, 0, 0, 0, 0]
    );
}

#[test]
fn what_is_no_answer_is_none() {
    for bytes in [
        [14, 0, 0, 0, 0, 0],
        [8, 1, 0, 0, 0, 0],
        [8, 0, 1, 0, 0, 0],
        [8, 0, 0, 0, 0, 1],
    ] {
        assert_eq!(Answer::from_bytes(bytes), None);
    }
}

#[test]
fn answers_stand_in_a_room_one_after_another() {
    let room = [
        [0, 1, 0, 0, 0, 0],
        [0, 0, 1, 2, 3, 4],
        [8, 0, 0, 0, 0, 0],
        [14, 0, 0, 0, 0, 0],
    ];
    let answers = Answer::each_in(&room.as_flattened()[..23]);
    assert_eq!(answers.len(), 3);
    let said = Vec::from_iter(answers.map(|answer| answer.unwrap().result()));
    let done = |fresh, value| Ok(Served { fresh, value });
    assert_eq!(
        said,
        [done(1, 0), done(0, 0x0102_0304), Err(Refusal::NothingThere)]
    );
    assert_eq!(Answer::each_in(room.as_flattened()).last(), Some(None));
}

#[test]
fn sizes_are_those_of_a_state() {
    for nodes in [1, 2, 40, Memory::MOST_NODES] {
        let sizes = Sizes {
            nodes,
            used: nodes,
            cells: nodes * Memory::NODE_CELLS,
            counts: nodes,
            order: nodes,
            versions: Memory::VERSIONS,
            walk_numbers: Memory::WALK_NUMBERS,
            walk_nodes: Memory::WALK_LEVELS,
            walk_indices: Memory::WALK_LEVELS,
        };
        assert_eq!(Sizes::of(nodes), Some(sizes));
    }
    for nodes in [0, Memory::MOST_NODES + 1, usize::MAX] {
        assert_eq!(Sizes::of(nodes), None);
    }
}
