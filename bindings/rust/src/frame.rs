//! Requests as frames of 12 bytes.

use crate::{Operation, Party, Slot, Walk};

/// One request. The constructors make those that no range check refuses; the fields may hold anything at all.
///
/// ```
/// use jumperloft::{Frame, Party, Slot};
///
/// let frame = Frame::push_back(Party::ALL[1], Slot::ALL[0], Slot::ALL[1], 7);
/// assert_eq!(frame.to_bytes(), [1, 6, 0, 1, 0, 0, 0, 0, 0, 0, 0, 7]);
/// assert_eq!(Frame::from_bytes(frame.to_bytes()), frame);
/// ```
#[derive(Clone, Copy, Debug, PartialEq, Eq, Hash)]
pub struct Frame {
    /// The party that asks.
    pub party: u8,
    /// The operation's number.
    pub operation: u8,
    /// The slot, or the walk of `next`, `next_back` and `close_walk`.
    pub slot: u8,
    /// The slot to be filled, the walk to be opened, or the other slot to compare.
    pub destination: u8,
    /// An index, the bits of a new vector, or the party that hands over.
    pub index: u32,
    /// A value, or the party that receives.
    pub value: u32,
}

impl Frame {
    /// Bytes of a frame.
    pub const SIZE: usize = 12;

    /// The frame as it is sent, numbers with the most significant byte first.
    pub const fn to_bytes(self) -> [u8; Frame::SIZE] {
        let [i0, i1, i2, i3] = self.index.to_be_bytes();
        let [v0, v1, v2, v3] = self.value.to_be_bytes();
        [
            self.party,
            self.operation,
            self.slot,
            self.destination,
            i0,
            i1,
            i2,
            i3,
            v0,
            v1,
            v2,
            v3,
        ]
    }

    /// Any 12 bytes are a frame, though maybe one that is refused.
    pub const fn from_bytes(bytes: [u8; Frame::SIZE]) -> Frame {
        let [
            party,
            operation,
            slot,
            destination,
            i0,
            i1,
            i2,
            i3,
            v0,
            v1,
            v2,
            v3,
        ] = bytes;
        Frame {
            party,
            operation,
            slot,
            destination,
            index: u32::from_be_bytes([i0, i1, i2, i3]),
            value: u32::from_be_bytes([v0, v1, v2, v3]),
        }
    }

    /// A frame with the fields that it doesn't use at 0.
    const fn asks(party: Party, operation: Operation) -> Frame {
        Frame {
            party: party.number(),
            operation: operation.number(),
            slot: 0,
            destination: 0,
            index: 0,
            value: 0,
        }
    }

    const fn on(self, slot: Slot) -> Frame {
        Frame {
            slot: slot.number(),
            ..self
        }
    }

    const fn of_walk(self, walk: Walk) -> Frame {
        Frame {
            slot: walk.number(),
            ..self
        }
    }

    const fn to(self, destination: Slot) -> Frame {
        Frame {
            destination: destination.number(),
            ..self
        }
    }

    const fn at(self, index: u32) -> Frame {
        Frame { index, ..self }
    }

    const fn with(self, value: u32) -> Frame {
        Frame { value, ..self }
    }
}

/// One constructor for each operation. [`PartyHandle`](crate::PartyHandle) and [`Host`](crate::Host) say what each does.
#[allow(missing_docs)]
impl Frame {
    pub const fn new_vector(party: Party, to: Slot, bits: u32) -> Frame {
        Frame::asks(party, Operation::NewVector).to(to).at(bits)
    }

    pub const fn clone_slot(party: Party, from: Slot, to: Slot) -> Frame {
        Frame::asks(party, Operation::CloneSlot).on(from).to(to)
    }

    pub const fn release(party: Party, slot: Slot) -> Frame {
        Frame::asks(party, Operation::Release).on(slot)
    }

    pub const fn len(party: Party, slot: Slot) -> Frame {
        Frame::asks(party, Operation::Len).on(slot)
    }

    pub const fn get(party: Party, slot: Slot, index: u32) -> Frame {
        Frame::asks(party, Operation::Get).on(slot).at(index)
    }

    pub const fn set(party: Party, from: Slot, to: Slot, index: u32, value: u32) -> Frame {
        Frame::asks(party, Operation::Set)
            .on(from)
            .to(to)
            .at(index)
            .with(value)
    }

    pub const fn push_back(party: Party, from: Slot, to: Slot, value: u32) -> Frame {
        Frame::asks(party, Operation::PushBack)
            .on(from)
            .to(to)
            .with(value)
    }

    pub const fn drop_last(party: Party, from: Slot, to: Slot) -> Frame {
        Frame::asks(party, Operation::DropLast).on(from).to(to)
    }

    pub const fn open_walk(party: Party, slot: Slot, walk: Walk) -> Frame {
        Frame {
            destination: walk.number(),
            ..Frame::asks(party, Operation::OpenWalk).on(slot)
        }
    }

    pub const fn next(party: Party, walk: Walk) -> Frame {
        Frame::asks(party, Operation::Next).of_walk(walk)
    }

    pub const fn next_back(party: Party, walk: Walk) -> Frame {
        Frame::asks(party, Operation::NextBack).of_walk(walk)
    }

    pub const fn close_walk(party: Party, walk: Walk) -> Frame {
        Frame::asks(party, Operation::CloseWalk).of_walk(walk)
    }

    pub const fn hand_over(giver: Party, from: Slot, receiver: Party, to: Slot) -> Frame {
        let (giver, receiver) = (giver.number() as u32, receiver.number() as u32);
        Frame::asks(Party::HOST, Operation::HandOver)
            .on(from)
            .to(to)
            .at(giver)
            .with(receiver)
    }

    pub const fn free_nodes() -> Frame {
        Frame::asks(Party::HOST, Operation::FreeNodes)
    }

    pub const fn first(party: Party, slot: Slot) -> Frame {
        Frame::asks(party, Operation::First).on(slot)
    }

    pub const fn last(party: Party, slot: Slot) -> Frame {
        Frame::asks(party, Operation::Last).on(slot)
    }

    pub const fn compare(party: Party, slot: Slot, other: Slot) -> Frame {
        Frame::asks(party, Operation::Compare).on(slot).to(other)
    }
}
