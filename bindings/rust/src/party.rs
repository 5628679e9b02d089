//! What a party may ask.

use std::cmp::Ordering;

use crate::{Answer, Batch, Edited, Frame, Party, PartyBatch, Refusal, Slot, StateRef};

/// A handle that speaks for one party alone: it reaches no other party's slots and walks.
///
/// A slot holds a version, which no call changes: an edit reads one slot and fills another, which has to be empty. Each call audits
/// the whole state; [`batch`](PartyHandle::batch) puts many into one.
#[derive(Debug)]
pub struct PartyHandle<'a> {
    state: StateRef<'a>,
    party: Party,
}

impl<'a> PartyHandle<'a> {
    pub(crate) fn of(state: StateRef<'a>, party: Party) -> PartyHandle<'a> {
        PartyHandle { state, party }
    }

    /// The party that this handle speaks for.
    pub fn party(&self) -> Party {
        self.party
    }

    /// The same handle, lent on for a shorter time.
    pub fn lend(&mut self) -> PartyHandle<'_> {
        self.state.party(self.party)
    }

    /// A batch of this party, with no frames yet.
    pub fn batch(&mut self) -> PartyBatch<'_> {
        PartyBatch::of(self.lend())
    }

    /// Runs requests that someone else wrote, as [`StateRef::run_into`] does, once this party stands in each of their frames.
    ///
    /// ```
    /// # use jumperloft::{Answer, Frame, Party, Refusal, Slot, State};
    /// # let mut state = State::new(64)?;
    /// # let ([host, plug_in, ..], slot) = (Party::ALL, Slot::ALL[0]);
    /// let mut requests = Frame::new_vector(host, slot, 5).to_bytes();
    /// let mut room = [0; Answer::SIZE];
    /// state.party(plug_in).run_into(&mut requests, &mut room)?;
    /// assert_eq!(state.party(host).len(slot), Err(Refusal::EmptySource));
    /// assert_eq!(state.party(plug_in).len(slot), Ok(0));
    /// # Ok::<(), Refusal>(())
    /// ```
    pub fn run_into(&mut self, requests: &mut [u8], room: &mut [u8]) -> Result<usize, Refusal> {
        let (frames, _) = requests.as_chunks_mut::<{ Frame::SIZE }>();
        for [party, ..] in frames {
            *party = self.party.number();
        }
        self.state.run_into(requests, room)
    }

    pub(crate) fn runs(&mut self, batch: &Batch) -> Result<Vec<Answer>, Refusal> {
        self.state.run(batch)
    }

    pub(crate) fn ask_each<const COUNT: usize>(
        &mut self,
        frames: [Frame; COUNT],
    ) -> Result<[Answer; COUNT], Refusal> {
        self.state.ask_each(frames)
    }

    pub(crate) fn does(&mut self, frame: Frame) -> Result<(), Refusal> {
        self.state.ask(frame).map(drop)
    }

    fn edits(&mut self, frame: Frame) -> Result<Edited, Refusal> {
        self.state.ask(frame).map(Edited::from)
    }

    pub(crate) fn reads(&mut self, frame: Frame) -> Result<u32, Refusal> {
        self.state.ask(frame).map(|served| served.value)
    }
}

/// Versions made, shared and let go.
impl PartyHandle<'_> {
    /// Fills a slot with an empty vector whose nodes have 2 to the power `bits` cells; bits are 1 to 5.
    ///
    /// ```
    /// # use jumperloft::{DEFAULT_BITS, Party, Refusal, Slot, State};
    /// # let mut state = State::new(64)?;
    /// # let slot = Slot::ALL[0];
    /// let mut plug_in = state.party(Party::new(1)?);
    /// assert_eq!(plug_in.new_vector(slot, DEFAULT_BITS)?.fresh, 1);
    /// assert_eq!(plug_in.new_vector(slot, DEFAULT_BITS), Err(Refusal::LiveTarget));
    /// # Ok::<(), Refusal>(())
    /// ```
    pub fn new_vector(&mut self, to: Slot, bits: u32) -> Result<Edited, Refusal> {
        self.edits(Frame::new_vector(self.party, to, bits))
    }

    /// Fills a slot with the version of another, sharing all nodes.
    ///
    /// ```
    /// # use jumperloft::{Party, Refusal, Slot, State};
    /// # let mut state = State::new(64)?;
    /// # let mut plug_in = state.party(Party::new(1)?);
    /// # let [from, to, ..] = Slot::ALL;
    /// plug_in.new_vector(from, 5)?;
    /// plug_in.clone_slot(from, to)?;
    /// assert_eq!(plug_in.len(to)?, 0);
    /// # Ok::<(), Refusal>(())
    /// ```
    pub fn clone_slot(&mut self, from: Slot, to: Slot) -> Result<(), Refusal> {
        self.does(Frame::clone_slot(self.party, from, to))
    }

    /// Empties a slot, and frees the nodes that nothing else reaches.
    ///
    /// ```
    /// # use jumperloft::{Party, Refusal, Slot, State};
    /// # let mut state = State::new(64)?;
    /// # let mut plug_in = state.party(Party::new(1)?);
    /// # let slot = Slot::ALL[0];
    /// plug_in.new_vector(slot, 5)?;
    /// plug_in.release(slot)?;
    /// assert_eq!(plug_in.len(slot), Err(Refusal::EmptySource));
    /// # Ok::<(), Refusal>(())
    /// ```
    pub fn release(&mut self, slot: Slot) -> Result<(), Refusal> {
        self.does(Frame::release(self.party, slot))
    }
}

/// Edits: one slot is read and another filled.
impl PartyHandle<'_> {
    /// Fills a slot with the vector of another, one element replaced.
    ///
    /// ```
    /// # use jumperloft::{Party, Refusal, Slot, State};
    /// # let mut state = State::new(64)?;
    /// # let mut plug_in = state.party(Party::new(1)?);
    /// # let [empty, one, changed, ..] = Slot::ALL;
    /// plug_in.new_vector(empty, 5)?;
    /// plug_in.push_back(empty, one, 7)?;
    /// plug_in.set(one, changed, 0, 8)?;
    /// assert_eq!((plug_in.get(one, 0)?, plug_in.get(changed, 0)?), (7, 8));
    /// # Ok::<(), Refusal>(())
    /// ```
    pub fn set(&mut self, from: Slot, to: Slot, index: u32, value: u32) -> Result<Edited, Refusal> {
        self.edits(Frame::set(self.party, from, to, index, value))
    }

    /// Fills a slot with the vector of another and one element more.
    ///
    /// ```
    /// # use jumperloft::{Party, Refusal, Slot, State};
    /// # let mut state = State::new(64)?;
    /// # let mut plug_in = state.party(Party::new(1)?);
    /// # let [empty, one, ..] = Slot::ALL;
    /// plug_in.new_vector(empty, 5)?;
    /// assert_eq!(plug_in.push_back(empty, one, 7)?.fresh, 1);
    /// assert_eq!((plug_in.len(empty)?, plug_in.len(one)?), (0, 1));
    /// # Ok::<(), Refusal>(())
    /// ```
    pub fn push_back(&mut self, from: Slot, to: Slot, value: u32) -> Result<Edited, Refusal> {
        self.edits(Frame::push_back(self.party, from, to, value))
    }

    /// Fills a slot with the vector of another without its last element.
    ///
    /// ```
    /// # use jumperloft::{Party, Refusal, Slot, State};
    /// # let mut state = State::new(64)?;
    /// # let mut plug_in = state.party(Party::new(1)?);
    /// # let [empty, one, none, ..] = Slot::ALL;
    /// plug_in.new_vector(empty, 5)?;
    /// plug_in.push_back(empty, one, 7)?;
    /// plug_in.drop_last(one, none)?;
    /// assert_eq!(plug_in.len(none)?, 0);
    /// # Ok::<(), Refusal>(())
    /// ```
    pub fn drop_last(&mut self, from: Slot, to: Slot) -> Result<Edited, Refusal> {
        self.edits(Frame::drop_last(self.party, from, to))
    }
}

/// Reads.
impl PartyHandle<'_> {
    /// The number of elements.
    pub fn len(&mut self, slot: Slot) -> Result<u32, Refusal> {
        self.reads(Frame::len(self.party, slot))
    }

    /// The element at an index.
    ///
    /// ```
    /// # use jumperloft::{Party, Refusal, Slot, State};
    /// # let mut state = State::new(64)?;
    /// # let mut plug_in = state.party(Party::new(1)?);
    /// # let [empty, one, ..] = Slot::ALL;
    /// plug_in.new_vector(empty, 5)?;
    /// plug_in.push_back(empty, one, 7)?;
    /// assert_eq!(plug_in.get(one, 0), Ok(7));
    /// assert_eq!(plug_in.get(one, 1), Err(Refusal::NothingThere));
    /// assert_eq!((plug_in.first(one), plug_in.last(one)), (Ok(7), Ok(7)));
    /// # Ok::<(), Refusal>(())
    /// ```
    pub fn get(&mut self, slot: Slot, index: u32) -> Result<u32, Refusal> {
        self.reads(Frame::get(self.party, slot, index))
    }

    /// The first element.
    pub fn first(&mut self, slot: Slot) -> Result<u32, Refusal> {
        self.reads(Frame::first(self.party, slot))
    }

    /// The last element.
    pub fn last(&mut self, slot: Slot) -> Result<u32, Refusal> {
        self.reads(Frame::last(self.party, slot))
    }

    /// Two vectors compared element by element, then the shorter first, whatever their bits.
    ///
    /// ```
    /// # use jumperloft::{Party, Refusal, Slot, State};
    /// # let mut state = State::new(64)?;
    /// # let mut plug_in = state.party(Party::new(1)?);
    /// # let [empty, one, ..] = Slot::ALL;
    /// plug_in.new_vector(empty, 5)?;
    /// plug_in.push_back(empty, one, 0)?;
    /// assert!(plug_in.compare(empty, one)?.is_lt());
    /// # Ok::<(), Refusal>(())
    /// ```
    pub fn compare(&mut self, slot: Slot, other: Slot) -> Result<Ordering, Refusal> {
        let answer = self.reads(Frame::compare(self.party, slot, other))?;
        Ok(answer.cast_signed().cmp(&0))
    }
}
