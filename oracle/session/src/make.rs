//! `session make`: lines that a seed decides. The state is run beside them, so that frames name what is live and lists grow long.

use crate::choice;
use crate::spoil;
use crate::state::{State, POOL};
use frames::numbers::*;
use frames::rng::Rng;
use frames::{Answer, Frame};

/// A slot of a party.
pub type Held = (u8, u8);

pub struct Maker {
    pub rng: Rng,
    pub state: State,
    lines: Vec<Vec<u8>>,
    count: usize,
}

/// The last line of an odd seed lacks its line feed, unless that is all it has.
pub fn make(seed: u64, count: usize) -> Vec<u8> {
    let mut maker = Maker {
        rng: Rng::new(seed),
        state: State::fresh(POOL),
        lines: Vec::new(),
        count,
    };
    // turns among three and among five repeat after fifteen
    let first_turn = (seed % 15) as usize;
    let mut round = 0;
    while !maker.is_done() {
        maker.round(round, first_turn);
        round += 1;
    }
    maker.lines.truncate(count);
    let mut bytes = maker.lines.concat();
    if seed % 2 == 1 && !bytes.ends_with(b"\n\n") {
        bytes.pop();
    }
    bytes
}

/// A frame of any party and operation; about one in five is made to be refused.
pub fn any_frame(rng: &mut Rng, state: &State) -> Frame {
    let party = rng.byte_below(PARTIES);
    match rng.below(100) {
        0..=1 => spoil::any_bytes(rng),
        2..=3 => spoil::bad_bits(rng, state, party),
        4..=5 => spoil::not_host(rng, state),
        6..=8 => spoil::out_of_range(rng, state, party),
        9..=18 => spoil::spoiled(rng, state),
        _ => {
            let nothing_live = choice::slots(state, party, true).is_empty();
            let operation = match choice::operation(rng) {
                _ if nothing_live && !rng.one_in(4) => NEW,
                operation => operation,
            };
            choice::frame(rng, state, party, operation)
        }
    }
}

impl Maker {
    pub fn is_done(&self) -> bool {
        self.lines.len() >= self.count
    }

    pub fn send(&mut self, frame: &Frame) -> Answer {
        self.lines.push(frame.line().into_bytes());
        self.state.serve(frame)
    }

    /// A frame that names one slot or walk.
    pub fn ask(&mut self, (party, slot): Held, operation: u8) -> Answer {
        let mut frame = choice::blank(&mut self.rng, party, operation);
        frame.slot = slot;
        if operation == GET {
            frame.index = self.index((party, slot));
        }
        self.send(&frame)
    }

    /// Set, push or drop that fills a slot of the same party.
    pub fn edit(&mut self, (party, slot): Held, destination: u8, operation: u8) -> Answer {
        let value = choice::value(&mut self.rng);
        let index = self.index((party, slot));
        let blank = choice::blank(&mut self.rng, party, operation);
        self.send(&Frame {
            slot,
            destination,
            index,
            value,
            ..blank
        })
    }

    fn index(&mut self, (party, slot): Held) -> u32 {
        let length = choice::length(&self.state, party, slot);
        choice::index(&mut self.rng, length)
    }

    /// Any line; with `spared`, none by that party.
    pub fn any(&mut self, spared: Option<u8>) {
        if self.rng.one_in(60) {
            let frame = any_frame(&mut self.rng, &self.state);
            let line = spoil::no_frame(&mut self.rng, &frame);
            self.lines.push(line);
            return;
        }
        let mut frame = any_frame(&mut self.rng, &self.state);
        while Some(frame.party) == spared {
            frame = any_frame(&mut self.rng, &self.state);
        }
        self.send(&frame);
    }

    /// Releases and closes, on the average, all but one in `but` of what is live and isn't `spared`.
    pub fn clear(&mut self, but: usize, spared: Option<Held>) {
        for party in 0..PARTIES {
            for walk in choice::walks(&self.state, party, true) {
                if !self.rng.one_in(but) {
                    self.ask((party, walk), CLOSE_WALK);
                }
            }
            for slot in choice::slots(&self.state, party, true) {
                if Some((party, slot)) != spared && !self.rng.one_in(but) {
                    self.ask((party, slot), RELEASE);
                }
            }
        }
    }
}

#[cfg(test)]
mod tests;
