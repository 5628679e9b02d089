//! Frames of eight parties, chosen from what is live in the model: lists grown long, edited until nodes are short, walked, and cleared.

use formulas::LENGTH_LIMIT;
use frames::numbers::*;
use frames::rng::Rng;
use frames::Frame;
use session::choice;
use session::make::any_frame;
use session::state::State;

/// Frames that go on after a list has its length.
const PUSHES_BEYOND: usize = 12;
/// The most reads of one kind in a row: more than a leaf has.
const ROW: usize = 80;
const EDITS: [u8; 9] = [
    SET, PUSH_BACK, SET, PUSH_BACK, DROP_LAST, CLONE, HAND_OVER, NEW, FREE_NODES,
];
const OF_WALKS: [u8; 14] = [
    NEXT, NEXT_BACK, NEXT, NEXT_BACK, NEXT, NEXT_BACK, NEXT, NEXT_BACK, OPEN_WALK, OPEN_WALK,
    CLOSE_WALK, RELEASE, SET, PUSH_BACK,
];

const CLEARS: [u8; 6] = [RELEASE, RELEASE, RELEASE, RELEASE, RELEASE, CLOSE_WALK];

#[derive(Clone, Copy)]
enum Phase {
    /// One party's list is pushed to from slot to slot, while others go on.
    Grow {
        party: u8,
        bits: u32,
        length: u32,
    },
    Edit,
    Walk,
    Anything,
    Clear,
}

pub struct Author {
    pub rng: Rng,
    phase: Phase,
    /// Frames until the next phase.
    left: usize,
    /// No list is meant to grow beyond.
    longest: u32,
    /// Phases that come before others, the last one first.
    planned: Vec<Phase>,
    /// Parties that do nothing else while lists grow.
    growing: Vec<u8>,
    /// A read, and how many of its kind are to follow.
    row: Option<(Frame, usize)>,
}

impl Author {
    pub fn new(seed: u64, longest: u32) -> Author {
        Author {
            rng: Rng::new(seed),
            phase: Phase::Anything,
            left: 40,
            longest,
            planned: Vec::new(),
            growing: Vec::new(),
            row: None,
        }
    }

    /// Begins with lists of some parties that grow to the limit, where pushes are refused.
    pub fn of_full_lists(seed: u64, bits: u32, parties: &[u8]) -> Author {
        let mut author = Author::new(seed, 100);
        let grow = |party: &u8| Phase::Grow {
            party: *party,
            bits,
            length: LENGTH_LIMIT,
        };
        author.planned = parties.iter().map(grow).collect();
        author.growing = parties.to_vec();
        author.left = 0;
        author
    }

    pub fn frame(&mut self, state: &State) -> Frame {
        if let Some(frame) = self.row_frame(state) {
            return frame;
        }
        let frame = self.phase_frame(state);
        if self.rng.one_in(4) {
            self.row = Some((frame, self.rng.below(ROW)));
        }
        frame
    }

    /// The same slot or walk again, while it is there: in order and once beyond the end, or any index; anything in the fields that a read doesn't use.
    fn row_frame(&mut self, state: &State) -> Option<Frame> {
        let (mut frame, left) = self.row.take().filter(|(_, left)| *left > 0)?;
        let party = (frame.party < PARTIES).then_some(frame.party)?;
        let (slots, walks) = (
            choice::slots(state, party, true),
            choice::walks(state, party, true),
        );
        let rng = &mut self.rng;
        match frame.operation {
            GET if slots.contains(&frame.slot) => {
                let after = frame.index.wrapping_add(1);
                let end = choice::length(state, party, frame.slot) + 1;
                frame.index = if rng.one_in(6) { rng.word() } else { after } % end;
            }
            // not long, as most walks are short
            NEXT | NEXT_BACK if walks.contains(&frame.slot) && !rng.one_in(10) => {
                frame.index = rng.word();
            }
            _ => return None,
        }
        frame.destination = rng.byte();
        frame.value = rng.word();
        self.row = Some((frame, left - 1));
        Some(frame)
    }

    fn phase_frame(&mut self, state: &State) -> Frame {
        if self.left == 0 {
            self.next_phase();
        }
        self.left -= 1;
        match self.phase {
            Phase::Grow {
                party,
                bits,
                length,
            } => self.grow(state, party, bits, length),
            Phase::Edit => self.one_of(state, &EDITS),
            Phase::Walk => self.one_of(state, &OF_WALKS),
            Phase::Anything => any_frame(&mut self.rng, state),
            Phase::Clear => self.one_of(state, &CLEARS),
        }
    }

    fn next_phase(&mut self) {
        self.phase = match self.planned.pop() {
            Some(phase) => phase,
            None => any_phase(&mut self.rng, self.longest),
        };
        self.left = match self.phase {
            Phase::Grow { length, .. } => 3 * length as usize,
            Phase::Walk => 300,
            Phase::Edit | Phase::Anything => 150,
            Phase::Clear => 10 + self.rng.below(120),
        };
    }

    /// The longest list is pushed to, then its party's other lists are released.
    fn grow(&mut self, state: &State, party: u8, bits: u32, length: u32) -> Frame {
        let rng = &mut self.rng;
        if rng.one_in(8) {
            let growing = |other: u8| other == party || self.growing.contains(&other);
            return others_frame(rng, state, growing);
        }
        let live = choice::slots(state, party, true);
        let length_of = |slot: &u8| choice::length(state, party, *slot);
        let Some(longest) = live.iter().copied().max_by_key(length_of) else {
            let mut frame = choice::frame(rng, state, party, NEW);
            frame.index = bits;
            return frame;
        };
        let other = live.iter().copied().find(|slot| *slot != longest);
        let operation = match other {
            Some(_) if live.len() == usize::from(SLOTS) || !rng.one_in(10) => RELEASE,
            _ => PUSH_BACK,
        };
        let mut frame = choice::frame(rng, state, party, operation);
        frame.slot = match (operation, other) {
            (RELEASE, Some(other)) => other,
            _ => longest,
        };
        if length_of(&longest) >= length {
            self.left = self.left.min(PUSHES_BEYOND);
        }
        frame
    }

    fn one_of(&mut self, state: &State, operations: &[u8]) -> Frame {
        let rng = &mut self.rng;
        let party = rng.byte_below(PARTIES);
        let operation = rng.of(operations);
        let slots_taken = choice::slots(state, party, false).is_empty();
        let operation = match operation {
            SET | PUSH_BACK | DROP_LAST | CLONE | NEW if slots_taken && !rng.one_in(4) => RELEASE,
            operation => operation,
        };
        choice::frame(rng, state, party, operation)
    }
}

fn any_phase(rng: &mut Rng, longest: u32) -> Phase {
    match rng.below(14) {
        0 | 1 => Phase::Grow {
            party: rng.byte_below(PARTIES),
            bits: 1 + rng.below(5) as u32,
            length: 2 + rng.below(longest as usize) as u32,
        },
        2..=4 => Phase::Edit,
        5..=8 => Phase::Walk,
        9..=12 => Phase::Anything,
        _ => Phase::Clear,
    }
}

/// Neither of a spared party nor one that hands a list to it.
fn others_frame(rng: &mut Rng, state: &State, spared: impl Fn(u8) -> bool) -> Frame {
    loop {
        let frame = any_frame(rng, state);
        let handed = frame.operation == HAND_OVER && spared(frame.value as u8);
        if !spared(frame.party) && !handed {
            return frame;
        }
    }
}
