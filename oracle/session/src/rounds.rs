//! What a made session goes through, again and again: a list grown past the lengths where its shape changes, walked, and dropped to nothing; lists compared; a pool filled; and anything between.

use crate::choice;
use crate::make::{Held, Maker};
use frames::numbers::*;
use frames::Frame;

const BITS: usize = 5;
/// Bits at which 1,025 elements and their path fit in the pool.
const BITS_OF_LONG: [u32; 3] = [3, 4, 5];

impl Maker {
    /// Every third round grows past 1,024, the others past 64; bits take turns.
    pub fn round(&mut self, round: usize, first_turn: usize) {
        let (long_rounds, long) = (round / 3, round % 3 == 2);
        let (bits, length) = if long {
            let turn = first_turn + long_rounds;
            (BITS_OF_LONG[turn % BITS_OF_LONG.len()], 1_025)
        } else {
            let turn = first_turn + round - long_rounds;
            (1 + (turn % BITS) as u32, 65)
        };
        self.clear(12, None);
        let party = self.rng.byte_below(PARTIES);
        let beyond = self.rng.below(4);
        let Some(held) = self.grow(party, bits, length + beyond) else {
            return;
        };
        let held = self.sway(held, 24);
        self.walk(held);
        self.anything(150);
        self.twins();
        self.clear(6, Some(held));
        self.fill_pool();
        self.anything(60);
        self.clear(3, Some(held));
        if !long {
            self.shrink(held);
        }
        self.anything(150);
    }

    fn anything(&mut self, lines: usize) {
        for _ in 0..lines {
            self.any(None);
        }
    }

    /// A new list, pushed to from slot to slot until it has the length, while others go on.
    fn grow(&mut self, party: u8, bits: u32, length: usize) -> Option<Held> {
        let mut held = self.new_list(party, bits)?;
        while choice::length(&self.state, held.0, held.1) < length as u32 && !self.is_done() {
            held = self.move_on(held, PUSH_BACK);
            if self.rng.one_in(6) {
                self.any(Some(party));
            }
        }
        Some(held)
    }

    fn new_list(&mut self, party: u8, bits: u32) -> Option<Held> {
        let slot = choice::slot(&mut self.rng, &self.state, party, false);
        let mut frame = choice::blank(&mut self.rng, party, NEW);
        (frame.destination, frame.index) = (slot, bits);
        let answer = self.send(&frame);
        (answer.number == DONE).then_some((party, slot))
    }

    /// The list after an edit, in another slot, its source released. If nodes or slots are short, others release theirs and it stays.
    fn move_on(&mut self, held: Held, operation: u8) -> Held {
        let party = held.0;
        let to = choice::slot(&mut self.rng, &self.state, party, false);
        match self.edit(held, to, operation).number {
            DONE => {
                self.ask(held, RELEASE);
                (party, to)
            }
            NO_NODES | ALREADY_LIVE => {
                self.clear(3, Some(held));
                held
            }
            _ => held,
        }
    }

    /// Up and down over the length where the list is.
    fn sway(&mut self, mut held: Held, steps: usize) -> Held {
        for step in 0..steps {
            let down = (step / 6) % 2 == 0;
            held = self.move_on(held, if down { DROP_LAST } else { PUSH_BACK });
            let question = self.rng.of(&[FIRST, LAST, LENGTH, GET]);
            self.ask(held, question);
        }
        self.move_on(held, SET)
    }

    /// Drops all, and once more.
    fn shrink(&mut self, mut held: Held) {
        while choice::length(&self.state, held.0, held.1) > 0 && !self.is_done() {
            held = self.move_on(held, DROP_LAST);
        }
        self.move_on(held, DROP_LAST);
        self.ask(held, FIRST);
        self.ask(held, LAST);
    }

    /// A walk, mostly from one end, on a list whose slot is soon released; to its end and beyond if that is near.
    fn walk(&mut self, (party, slot): Held) {
        const STEPS: usize = 90;
        let to = choice::slot(&mut self.rng, &self.state, party, false);
        let mut frame = choice::blank(&mut self.rng, party, CLONE);
        (frame.slot, frame.destination) = (slot, to);
        self.send(&frame);
        let mut frame = choice::blank(&mut self.rng, party, OPEN_WALK);
        (frame.slot, frame.destination) = (to, 0);
        self.send(&frame);

        let often_back = self.rng.one_in(2);
        for step in 0..STEPS {
            let back = self.rng.one_in(3) == often_back;
            self.ask((party, 0), if back { NEXT_BACK } else { NEXT });
            if step == STEPS / 3 {
                self.ask((party, to), RELEASE);
            }
        }
    }

    /// The same values in lists of two bits, compared at each length, then made to differ.
    fn twins(&mut self) {
        let party = self.rng.byte_below(PARTIES);
        let bits = 1 + self.rng.below(BITS) as u32;
        let (Some(mut one), Some(mut other)) = (
            self.new_list(party, bits),
            self.new_list(party, 1 + bits % BITS as u32),
        ) else {
            return;
        };
        for _ in 0..self.rng.below(8) {
            let value = choice::value(&mut self.rng);
            one = self.pushed(one, value);
            other = self.pushed(other, value);
            self.compare(one, other);
        }
        let operation = self.rng.of(&[SET, PUSH_BACK, DROP_LAST]);
        one = self.move_on(one, operation);
        self.compare(one, other);
        self.compare(other, one);
    }

    fn pushed(&mut self, (party, slot): Held, value: u32) -> Held {
        let to = choice::slot(&mut self.rng, &self.state, party, false);
        let mut frame = choice::blank(&mut self.rng, party, PUSH_BACK);
        (frame.slot, frame.destination, frame.value) = (slot, to, value);
        if self.send(&frame).number != DONE {
            return (party, slot);
        }
        self.ask((party, slot), RELEASE);
        (party, to)
    }

    fn compare(&mut self, (party, slot): Held, (_, destination): Held) {
        let blank = choice::blank(&mut self.rng, party, COMPARE);
        self.send(&Frame {
            slot,
            destination,
            ..blank
        });
    }

    /// Grows a list of high paths, hands it over to all and lets them edit it until nodes are short, and for a while longer.
    fn fill_pool(&mut self) {
        const LENGTH: usize = 33;
        const REFUSED: usize = 40;
        const LINES: usize = 300;
        let party = self.rng.byte_below(PARTIES);
        let Some(held) = self.grow(party, 1, LENGTH) else {
            return;
        };
        self.hand_to_all(held);
        let mut refused = 0;
        for _ in 0..LINES {
            let party = self.rng.byte_below(PARTIES);
            let source = self.source(party);
            let to = choice::slot(&mut self.rng, &self.state, party, false);
            let operation = self
                .rng
                .of(&[SET, PUSH_BACK, SET, PUSH_BACK, DROP_LAST, NEW]);
            let answer = match operation {
                NEW => self.new_or_free(party),
                _ => self.edit((party, source), to, operation).number,
            };
            refused += usize::from(answer == NO_NODES);
            if refused > REFUSED {
                return;
            }
            let short = answer == ALREADY_LIVE || (answer == NO_NODES && self.rng.one_in(3));
            if short && (party, source) != held {
                self.ask((party, source), RELEASE);
            }
        }
    }

    /// The party's longest list, mostly.
    fn source(&mut self, party: u8) -> u8 {
        let any = choice::slot(&mut self.rng, &self.state, party, true);
        if self.rng.one_in(4) {
            return any;
        }
        let length = |slot: &u8| choice::length(&self.state, party, *slot);
        let slots = choice::slots(&self.state, party, true);
        slots.into_iter().max_by_key(length).unwrap_or(any)
    }

    fn hand_to_all(&mut self, (party, slot): Held) {
        for to in 0..PARTIES {
            let destination = choice::slot(&mut self.rng, &self.state, to, false);
            let blank = choice::blank(&mut self.rng, HOST, HAND_OVER);
            let (index, value) = (u32::from(party), u32::from(to));
            self.send(&Frame {
                slot,
                destination,
                index,
                value,
                ..blank
            });
        }
    }

    fn new_or_free(&mut self, party: u8) -> u8 {
        let operation = self.rng.of(&[NEW, FREE_NODES]);
        let frame = choice::frame(&mut self.rng, &self.state, party, operation);
        self.send(&frame).number
    }
}
