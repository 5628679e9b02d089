//! What a frame can ask for.

use crate::Refusal;

/// What a frame asks for; the numbers are document 01's.
#[derive(Clone, Copy, Debug, PartialEq, Eq, Hash)]
#[repr(u8)]
#[allow(missing_docs)] // a method of `PartyHandle` or `Host` has each name
pub enum Operation {
    NewVector = 0x00,
    CloneSlot = 0x01,
    Release = 0x02,
    Len = 0x03,
    Get = 0x04,
    Set = 0x05,
    PushBack = 0x06,
    DropLast = 0x07,
    OpenWalk = 0x08,
    Next = 0x09,
    NextBack = 0x0A,
    CloseWalk = 0x0B,
    HandOver = 0x0C,
    FreeNodes = 0x0D,
    First = 0x0E,
    Last = 0x0F,
    Compare = 0x10,
}

impl Operation {
    /// All of them, by number.
    pub const ALL: [Operation; 17] = [
        Operation::NewVector,
        Operation::CloneSlot,
        Operation::Release,
        Operation::Len,
        Operation::Get,
        Operation::Set,
        Operation::PushBack,
        Operation::DropLast,
        Operation::OpenWalk,
        Operation::Next,
        Operation::NextBack,
        Operation::CloseWalk,
        Operation::HandOver,
        Operation::FreeNodes,
        Operation::First,
        Operation::Last,
        Operation::Compare,
    ];

    /// Document 01's number.
    pub const fn number(self) -> u8 {
        self as u8
    }
}

impl TryFrom<u8> for Operation {
    type Error = Refusal;

    /// The operation of a number; else the refusal that a frame with it would get.
    fn try_from(number: u8) -> Result<Operation, Refusal> {
        let mut all = Operation::ALL.into_iter();
        all.find(|operation| operation.number() == number)
            .ok_or(Refusal::NoOperation)
    }
}
