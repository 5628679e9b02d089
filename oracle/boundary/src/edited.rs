//! One editor's versions of a list that another party owns: each edit fills the other of two slots, and its source is released.

use formulas::LENGTH_LIMIT;
use frames::grown::LIST;
use frames::numbers::*;
use frames::rng::Rng;
use frames::Frame;
use session::choice;

pub struct Edited {
    owner: u8,
    editor: u8,
    /// The version stands in the first.
    slots: [u8; 2],
    length: u32,
    owned_length: u32,
    /// Pushes or drops lead there, then another is chosen.
    wanted_length: u32,
}

impl Edited {
    /// The list has still to be handed over.
    pub fn new(owner: u8, editor: u8, slots: [u8; 2], owned_length: u32) -> Edited {
        Edited {
            owner,
            editor,
            slots,
            length: owned_length,
            owned_length,
            wanted_length: owned_length,
        }
    }

    pub fn handed_over(&self) -> Frame {
        Frame::hand_over((self.owner, LIST), (self.editor, self.slots[0]))
    }

    pub fn release(&self) -> Frame {
        Frame::of(self.editor, RELEASE, self.slots[0], 0)
    }

    /// Lets the version go and takes the owner's again.
    pub fn anew(&mut self) -> [Frame; 2] {
        self.length = self.owned_length;
        [self.release(), self.handed_over()]
    }

    pub fn edit(&mut self, rng: &mut Rng) -> [Frame; 2] {
        if self.length == self.wanted_length {
            let longest = LENGTH_LIMIT.min(2 * self.owned_length);
            self.wanted_length = rng.below(longest as usize + 1) as u32;
        }
        let operation = match rng.below(3) {
            0 if self.length > 0 => SET,
            _ if self.length < self.wanted_length => PUSH_BACK,
            _ if self.length > 0 => DROP_LAST,
            _ => PUSH_BACK,
        };
        let [from, to] = self.slots;
        let edit = Frame {
            index: rng.below(self.length.max(1) as usize) as u32,
            value: choice::value(rng),
            ..Frame::of(self.editor, operation, from, to)
        };
        let release = self.release();
        self.slots = [to, from];
        match operation {
            PUSH_BACK => self.length += 1,
            DROP_LAST => self.length -= 1,
            _ => {}
        }
        [edit, release]
    }
}
