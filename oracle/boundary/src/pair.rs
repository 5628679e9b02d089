//! A lent state behind the C boundary and the model beside it, served the same frames.

use frames::numbers::{PARTIES, SLOTS, WALKS};
use frames::{Answer, Frame, ANSWER_SIZE};
use lent::ffi::{self, Report};
use lent::Lent;
use original::vector::probe;
use session::places::Place;
use session::state::State;

/// What answer room holds before a batch.
const UNTOUCHED: u8 = 0x5A;

pub struct Pair {
    pub lent: Lent,
    pub model: State,
}

/// The frame's number in its batch, if it is one frame's, and what differs.
pub struct Disagreement {
    pub frame: Option<usize>,
    pub told: String,
}

impl Pair {
    pub fn fresh(nodes: usize) -> Pair {
        Pair {
            lent: Lent::formed(nodes),
            model: State::fresh(nodes),
        }
    }

    /// One batch of frames that the model has answered, with room beyond the answers.
    pub fn batch(
        &mut self,
        frames: &[Frame],
        answers: &[Answer],
        beyond: usize,
    ) -> Result<(), Disagreement> {
        let requests: Vec<u8> = frames.iter().flat_map(Frame::bytes).collect();
        let wanted: Vec<u8> = answers.iter().flat_map(Answer::bytes).collect();
        let mut room = vec![UNTOUCHED; wanted.len() + beyond];
        let report = ffi::batch(&mut self.lent, &requests, &mut room);
        let ran = Report {
            number: 0,
            frames: frames.len(),
        };
        if report != ran {
            return Err(Disagreement::of_batch(format!("{report:?}, not {ran:?}")));
        }
        let (given, rest) = room.split_at(wanted.len());
        if given != wanted {
            return Err(Disagreement::of_answers(frames, given, &wanted));
        }
        if rest.iter().any(|byte| *byte != UNTOUCHED) {
            let told = String::from("room beyond the answers was written");
            return Err(Disagreement::of_batch(told));
        }
        Ok(())
    }

    /// One batch, served by the model first.
    pub fn serve(&mut self, frames: &[Frame]) -> Result<Vec<Answer>, Disagreement> {
        let served = frames.iter().map(|frame| self.model.serve(frame));
        let answers: Vec<Answer> = served.collect();
        self.batch(frames, &answers, 0)?;
        Ok(answers)
    }

    /// Free nodes, open walks, and bits, length and elements of all slots.
    pub fn hold_contents(&self) -> Result<(), Disagreement> {
        let (free, wanted) = (self.lent.free_nodes(), self.model.free_nodes());
        if free != wanted {
            let told = format!("{free} free nodes, not {wanted}");
            return Err(Disagreement::of_batch(told));
        }
        for party in 0..PARTIES {
            for walk in 0..WALKS {
                self.hold_walk(party, walk)?;
            }
            for slot in 0..SLOTS {
                self.hold_slot(party, slot)?;
            }
        }
        Ok(())
    }

    fn hold_walk(&self, party: u8, walk: u8) -> Result<(), Disagreement> {
        let number = usize::from(WALKS * party + walk);
        let place = Place::Walk {
            party: u32::from(party),
            walk,
        };
        if self.lent.is_open(number) == self.model.is_live(place) {
            return Ok(());
        }
        let told = format!("{place:?} is open on one side only");
        Err(Disagreement::of_batch(told))
    }

    fn hold_slot(&self, party: u8, slot: u8) -> Result<(), Disagreement> {
        let version = self.lent.version(usize::from(SLOTS * party + slot));
        let place = Place::Slot {
            party: u32::from(party),
            slot,
        };
        let wrong = |what| Err(Disagreement::of_batch(format!("{place:?}: {what}")));
        if (version.live == 1) != self.model.is_live(place) {
            return wrong("live on one side only");
        }
        if version.live == 0 {
            return Ok(());
        }
        let list = self.model.list(place);
        if version.bits != u32::from(probe::bits(list)) || version.length != list.len() as u32 {
            return wrong("other bits or another length");
        }
        if !self.lent.elements(version).iter().eq(list.iter()) {
            return wrong("other elements");
        }
        Ok(())
    }
}

impl Disagreement {
    pub fn of_batch(told: String) -> Disagreement {
        Disagreement { frame: None, told }
    }

    fn of_answers(frames: &[Frame], given: &[u8], wanted: &[u8]) -> Disagreement {
        let pairs = given.chunks(ANSWER_SIZE).zip(wanted.chunks(ANSWER_SIZE));
        let number = pairs.take_while(|(given, wanted)| given == wanted).count();
        let at = |answers: &[u8]| answers[ANSWER_SIZE * number..][..ANSWER_SIZE].to_vec();
        let (line, given, wanted) = (frames[number].line(), at(given), at(wanted));
        Disagreement {
            frame: Some(number),
            told: format!(
                "{} answers {given:02X?}, the model {wanted:02X?}",
                line.trim_end()
            ),
        }
    }
}
