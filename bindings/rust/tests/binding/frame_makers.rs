//! The bytes of every frame that can be made, by a maker of its name and by a party's batch, at the edges of every argument.

use jumperloft::{Batch, Frame, Operation, Party, PartyBatch, Slot, State, Walk};

/// Words whose bytes are all different, and the ends of what one, two, three and four bytes hold.
const EDGES: [u32; 10] = [
    0,
    1,
    0xFF,
    0x100,
    0xFFFF,
    0x1_0000,
    0xFF_FFFF,
    0x100_0000,
    0x0102_0304,
    u32::MAX,
];

struct Arguments {
    party: Party,
    slots: [Slot; 2],
    walk: Walk,
    index: u32,
    value: u32,
}

/// The fields of a frame beside its party: the operation, slot and destination, index and value.
type Fields = (Operation, [u8; 2], [u32; 2]);

fn bytes_of(party: u8, (operation, [slot, destination], words): Fields) -> [u8; Frame::SIZE] {
    let mut bytes = [0; Frame::SIZE];
    bytes[..4].copy_from_slice(&[party, operation.number(), slot, destination]);
    for (number, word) in words.into_iter().enumerate() {
        for byte in 0..4 {
            bytes[4 + 4 * number + byte] = (word >> (24 - 8 * byte)) as u8;
        }
    }
    bytes
}

/// Every frame that a party may make, with the fields that it has to have.
fn of_a_party(arguments: &Arguments) -> [(Frame, Fields); 15] {
    use Operation::*;
    let Arguments {
        party,
        slots: [from, to],
        walk,
        index,
        value,
    } = *arguments;
    let (f, t, w) = (from.number(), to.number(), walk.number());
    [
        (
            Frame::new_vector(party, to, index),
            (NewVector, [0, t], [index, 0]),
        ),
        (
            Frame::clone_slot(party, from, to),
            (CloneSlot, [f, t], [0, 0]),
        ),
        (Frame::release(party, from), (Release, [f, 0], [0, 0])),
        (Frame::len(party, from), (Len, [f, 0], [0, 0])),
        (Frame::get(party, from, index), (Get, [f, 0], [index, 0])),
        (
            Frame::set(party, from, to, index, value),
            (Set, [f, t], [index, value]),
        ),
        (
            Frame::push_back(party, from, to, value),
            (PushBack, [f, t], [0, value]),
        ),
        (
            Frame::drop_last(party, from, to),
            (DropLast, [f, t], [0, 0]),
        ),
        (
            Frame::open_walk(party, from, walk),
            (OpenWalk, [f, w], [0, 0]),
        ),
        (Frame::next(party, walk), (Next, [w, 0], [0, 0])),
        (Frame::next_back(party, walk), (NextBack, [w, 0], [0, 0])),
        (Frame::close_walk(party, walk), (CloseWalk, [w, 0], [0, 0])),
        (Frame::first(party, from), (First, [f, 0], [0, 0])),
        (Frame::last(party, from), (Last, [f, 0], [0, 0])),
        (Frame::compare(party, from, to), (Compare, [f, t], [0, 0])),
    ]
}

/// The same frames by a party's batch.
fn put_all(batch: &mut PartyBatch<'_>, arguments: &Arguments) {
    let Arguments {
        slots: [from, to],
        walk,
        index,
        value,
        ..
    } = *arguments;
    batch
        .new_vector(to, index)
        .clone_slot(from, to)
        .release(from)
        .len(from)
        .get(from, index)
        .set(from, to, index, value)
        .push_back(from, to, value)
        .drop_last(from, to)
        .open_walk(from, walk)
        .next(walk)
        .next_back(walk)
        .close_walk(walk)
        .first(from)
        .last(from)
        .compare(from, to);
}

fn made_right(state: &mut State, arguments: &Arguments) {
    let party = arguments.party.number();
    let frames = of_a_party(arguments);
    for (frame, fields) in frames {
        assert_eq!(frame.to_bytes(), bytes_of(party, fields), "{frame:?}");
        assert_eq!(Frame::from_bytes(frame.to_bytes()), frame);
    }
    let mut handle = state.party(arguments.party);
    let mut batch = handle.batch();
    put_all(&mut batch, arguments);
    assert_eq!(
        *batch.frames(),
        Batch::from_iter(frames.map(|(frame, _)| frame))
    );
}

#[test]
fn frames_of_every_party_slot_and_walk() {
    let mut state = State::new(1).unwrap();
    for party in Party::ALL {
        for slots in Slot::ALL
            .into_iter()
            .flat_map(|from| Slot::ALL.map(|to| [from, to]))
        {
            for walk in Walk::ALL {
                let (index, value) = (0x0102_0304, 0x0506_0708);
                made_right(
                    &mut state,
                    &Arguments {
                        party,
                        slots,
                        walk,
                        index,
                        value,
                    },
                );
            }
        }
    }
}

#[test]
fn frames_with_the_edges_of_index_and_value() {
    let mut state = State::new(1).unwrap();
    let (party, slots, walk) = (Party::ALL[5], [Slot::ALL[2], Slot::ALL[3]], Walk::ALL[1]);
    for (index, value) in EDGES
        .into_iter()
        .flat_map(|index| EDGES.map(|value| (index, value)))
    {
        made_right(
            &mut state,
            &Arguments {
                party,
                slots,
                walk,
                index,
                value,
            },
        );
    }
}

#[test]
fn frames_of_the_host() {
    let free_nodes = (Operation::FreeNodes, [0, 0], [0, 0]);
    assert_eq!(Frame::free_nodes().to_bytes(), bytes_of(0, free_nodes));
    for (giver, receiver) in Party::ALL
        .into_iter()
        .flat_map(|giver| Party::ALL.map(|r| (giver, r)))
    {
        for (from, to) in Slot::ALL
            .into_iter()
            .flat_map(|from| Slot::ALL.map(|to| (from, to)))
        {
            let parties = [giver.number().into(), receiver.number().into()];
            let fields = (Operation::HandOver, [from.number(), to.number()], parties);
            let frame = Frame::hand_over(giver, from, receiver, to);
            assert_eq!(frame.to_bytes(), bytes_of(0, fields));
        }
    }
}
