//! A walk as an iterator.

use std::fmt;
use std::iter::FusedIterator;

use crate::{Answer, Frame, PartyHandle, Walk};

/// Elements taken in one batch: so many that the audit before it hardly counts, in room that a stack has.
const AHEAD: usize = 256;

const HELD_ALONE: &str = "a state that is held alone stays well-formed, and its walk open";

/// The elements of a version in order, from either end. [`PartyHandle::values`] opens its walk; dropping it closes the walk.
///
/// It takes elements from the walk up to 256 at a time, as each batch audits the whole state. An iterator that is forgotten, not
/// dropped, leaves its walk open.
pub struct Values<'a> {
    party: PartyHandle<'a>,
    walk: Walk,
    /// Elements that are still in the walk.
    untaken: usize,
    front: Ahead,
    back: Ahead,
}

/// Elements taken from one end of the walk and not yet given on, the outermost first.
struct Ahead {
    values: [u32; AHEAD],
    start: usize,
    end: usize,
}

impl Ahead {
    const NONE: Ahead = Ahead {
        values: [0; AHEAD],
        start: 0,
        end: 0,
    };

    fn len(&self) -> usize {
        self.end - self.start
    }

    fn outermost(&mut self) -> Option<u32> {
        let value = *self.values[..self.end].get(self.start)?;
        self.start += 1;
        Some(value)
    }

    fn innermost(&mut self) -> Option<u32> {
        let value = *self.values[self.start..self.end].last()?;
        self.end -= 1;
        Some(value)
    }
}

impl<'a> Values<'a> {
    pub(crate) fn of(party: PartyHandle<'a>, walk: Walk, untaken: usize) -> Values<'a> {
        Values {
            party,
            walk,
            untaken,
            front: Ahead::NONE,
            back: Ahead::NONE,
        }
    }

    /// Takes elements from one end of the walk, by as many frames as there are elements or as fit.
    fn take(&mut self, frame: Frame) -> Ahead {
        let count = self.untaken.min(AHEAD);
        let mut requests = [frame.to_bytes(); AHEAD];
        let mut room = [[0; Answer::SIZE]; AHEAD];
        let (requests, room) = (&mut requests[..count], &mut room[..count]);
        let ran = self
            .party
            .run_into(requests.as_flattened_mut(), room.as_flattened_mut());
        let mut ahead = Ahead {
            end: ran.expect(HELD_ALONE),
            ..Ahead::NONE
        };
        self.untaken -= ahead.end;
        let answers = Answer::each_in(room.as_flattened());
        for (value, answer) in ahead.values.iter_mut().zip(answers) {
            let served = answer.and_then(|answer| answer.result().ok());
            *value = served.expect(HELD_ALONE).value;
        }
        ahead
    }
}

impl Iterator for Values<'_> {
    type Item = u32;

    fn next(&mut self) -> Option<u32> {
        if self.front.len() == 0 && self.untaken > 0 {
            self.front = self.take(Frame::next(self.party.party(), self.walk));
        }
        self.front.outermost().or_else(|| self.back.innermost())
    }

    fn size_hint(&self) -> (usize, Option<usize>) {
        let left = self.front.len() + self.untaken + self.back.len();
        (left, Some(left))
    }
}

impl DoubleEndedIterator for Values<'_> {
    fn next_back(&mut self) -> Option<u32> {
        if self.back.len() == 0 && self.untaken > 0 {
            self.back = self.take(Frame::next_back(self.party.party(), self.walk));
        }
        self.back.outermost().or_else(|| self.front.innermost())
    }
}

impl ExactSizeIterator for Values<'_> {}

impl FusedIterator for Values<'_> {}

impl Drop for Values<'_> {
    fn drop(&mut self) {
        // it is open, since nobody else could close it
        let _ = self.party.close_walk(self.walk);
    }
}

impl fmt::Debug for Values<'_> {
    fn fmt(&self, f: &mut fmt::Formatter<'_>) -> fmt::Result {
        f.debug_struct("Values")
            .field("party", &self.party)
            .field("walk", &self.walk)
            .field("left", &self.len())
            .finish_non_exhaustive()
    }
}
