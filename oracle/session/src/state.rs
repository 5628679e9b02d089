//! The program's state, made of the original's vectors: who holds which list, and what a frame makes of it.
//!
//! Costs come from the original itself. Each of its nodes is live exactly while a list in a slot or in a walk reaches it, so free nodes are the pool less `CountingK::live`. Fresh is the rise of the live nodes over a call, whose source is still held; the charge is the nodes allocated in it, for a drop the whole path, copied first. Document 01 says the same of both, which the tests check by its formulas, as they check the free nodes by walking all lists.

use crate::places::{Place, Places};
use crate::walk::{End, List, Walk};
use archery::CountingK;
use formulas::{BITS, LENGTH_LIMIT};
use frames::numbers::*;
use frames::{Answer, Frame};

/// The nodes of the program's state.
pub const POOL: usize = 256;

#[derive(Default)]
struct Party {
    slots: [Option<List>; SLOTS as usize],
    walks: [Option<Walk>; WALKS as usize],
}

pub struct State {
    pool: usize,
    parties: [Party; PARTIES as usize],
}

type Refusal = u8;

impl State {
    pub fn fresh(pool: usize) -> State {
        assert_eq!(CountingK::live(), 0, "lists of an earlier state are live");
        State {
            pool,
            parties: Default::default(),
        }
    }

    pub fn serve(&mut self, frame: &Frame) -> Answer {
        let outcome = self
            .checked(frame)
            .and_then(|places| self.run(frame, &places));
        match outcome {
            Ok((fresh, value)) => Answer::done(fresh as u8, value),
            Err(number) => Answer::refused(number),
        }
    }

    /// Empties every slot and closes every walk.
    pub fn clear(&mut self) {
        self.parties = Default::default();
    }

    pub fn free_nodes(&self) -> usize {
        self.pool - CountingK::live()
    }

    pub fn is_live(&self, place: Place) -> bool {
        match place {
            Place::Slot { party, slot } => self.party(party).slots[slot as usize].is_some(),
            Place::Walk { party, walk } => self.party(party).walks[walk as usize].is_some(),
        }
    }

    /// The list in a slot or held by a walk, which is live.
    pub fn list(&self, place: Place) -> &List {
        let list = match place {
            Place::Slot { party, slot } => self.party(party).slots[slot as usize].as_ref(),
            Place::Walk { party, walk } => {
                let walk = self.party(party).walks[walk as usize].as_ref();
                walk.map(Walk::list)
            }
        };
        list.expect("the place is live")
    }

    fn party(&self, party: u32) -> &Party {
        &self.parties[party as usize]
    }

    /// The checks 1 to 7 in their order; a call that runs meets 8, 9 and 10.
    fn checked(&self, frame: &Frame) -> Result<Places, Refusal> {
        let refused_if = |wrong, number| if wrong { Err(number) } else { Ok(()) };
        let Frame {
            party, operation, ..
        } = *frame;
        refused_if(party >= PARTIES, NO_PARTY)?;
        refused_if(usize::from(operation) >= OPERATIONS, NO_OPERATION)?;

        let is_hosts = matches!(operation, HAND_OVER | FREE_NODES);
        refused_if(is_hosts && party != HOST, NOT_HOST)?;

        let places = Places::of(frame);
        let in_range = places.all().all(Place::is_in_range);
        refused_if(!in_range, OUT_OF_RANGE)?;

        let all_there = places.sources.iter().all(|source| self.is_live(*source));
        refused_if(!all_there, SOURCE_EMPTY)?;

        let already_live = places.filled.is_some_and(|place| self.is_live(place));
        refused_if(already_live, ALREADY_LIVE)?;

        refused_if(operation == NEW && !BITS.contains(&frame.index), BAD_BITS)?;
        Ok(places)
    }

    /// Fresh nodes and value.
    fn run(&mut self, frame: &Frame, places: &Places) -> Result<(usize, u32), Refusal> {
        let list = |number: usize| self.list(places.sources[number]);
        let element = |element: Option<&u32>| element.copied().ok_or(NOTHING_THERE);
        let value = match frame.operation {
            LENGTH => list(0).len() as u32,
            GET => element(list(0).get(frame.index as usize))?,
            FIRST => element(list(0).first())?,
            LAST => element(list(0).last())?,
            COMPARE => list(0).cmp(list(1)) as i32 as u32,
            FREE_NODES => self.free_nodes() as u32,
            NEXT => self.step(places.sources[0], End::Front)?,
            NEXT_BACK => self.step(places.sources[0], End::Back)?,
            RELEASE | CLOSE_WALK => self.empty(places.sources[0]),
            _ => return self.fill(frame, places).map(|fresh| (fresh, 0)),
        };
        Ok((0, value))
    }

    fn step(&mut self, place: Place, end: End) -> Result<u32, Refusal> {
        let Place::Walk { party, walk } = place else {
            unreachable!("a slot is not stepped");
        };
        let walk = self.parties[party as usize].walks[walk as usize].as_mut();
        let walk = walk.expect("the walk is open");
        walk.step(end).ok_or(NOTHING_THERE)
    }

    /// The value answered is 0.
    fn empty(&mut self, place: Place) -> u32 {
        match place {
            Place::Slot { party, slot } => {
                self.parties[party as usize].slots[slot as usize] = None;
            }
            Place::Walk { party, walk } => {
                self.parties[party as usize].walks[walk as usize] = None;
            }
        }
        0
    }

    /// Fills a slot or opens a walk with what the call makes, if the nodes free before it met the charge.
    fn fill(&mut self, frame: &Frame, places: &Places) -> Result<usize, Refusal> {
        let (free, allocated) = (self.free_nodes(), CountingK::allocated());
        let result = self.result(frame, places)?;
        let charge = CountingK::allocated() - allocated;
        if free < charge {
            return Err(NO_NODES);
        }
        match places.filled.expect("the operation fills a place") {
            Place::Slot { party, slot } => {
                self.parties[party as usize].slots[slot as usize] = Some(result);
            }
            Place::Walk { party, walk } => {
                self.parties[party as usize].walks[walk as usize] = Some(Walk::on(&result));
            }
        }
        Ok(free - self.free_nodes())
    }

    /// Clone, hand-over and a walk share the source's nodes.
    fn result(&self, frame: &Frame, places: &Places) -> Result<List, Refusal> {
        let source = || self.list(places.sources[0]);
        let Frame { index, value, .. } = *frame;
        match frame.operation {
            NEW => Ok(List::new_with_bits(index as u8)),
            CLONE | HAND_OVER | OPEN_WALK => Ok(source().clone()),
            SET => source().set(index as usize, value).ok_or(NOTHING_THERE),
            DROP_LAST => source().drop_last().ok_or(NOTHING_THERE),
            // the original has no such limit
            PUSH_BACK if source().len() == LENGTH_LIMIT as usize => Err(FULL),
            PUSH_BACK => Ok(source().push_back(value)),
            other => unreachable!("operation {other:02X} fills nothing"),
        }
    }
}

#[cfg(test)]
mod tests;
