//! What a party may ask of its walks.

use crate::{Frame, PartyHandle, Refusal, Slot, Values, Walk};

/// Walks, which hold their version even after its slot is released.
impl PartyHandle<'_> {
    /// All elements in order, from either end, by a walk that is closed when the iterator is dropped.
    ///
    /// ```
    /// # use jumperloft::{Party, Refusal, Slot, State, Walk};
    /// # let mut state = State::new(64)?;
    /// # let mut plug_in = state.party(Party::new(1)?);
    /// # let [empty, one, two, ..] = Slot::ALL;
    /// plug_in.new_vector(empty, 5)?;
    /// plug_in.push_back(empty, one, 7)?;
    /// plug_in.push_back(one, two, 9)?;
    /// let values = plug_in.values(two, Walk::ALL[0])?;
    /// assert_eq!(values.len(), 2);
    /// assert_eq!(values.sum::<u32>(), 16);
    /// # Ok::<(), Refusal>(())
    /// ```
    pub fn values(&mut self, slot: Slot, walk: Walk) -> Result<Values<'_>, Refusal> {
        let party = self.party();
        let frames = [Frame::len(party, slot), Frame::open_walk(party, slot, walk)];
        let [length, opened] = self.ask_each(frames)?;
        opened.result()?;
        let untaken = length.result()?.value as usize;
        Ok(Values::of(self.lend(), walk, untaken))
    }

    /// Opens a walk over the version in a slot.
    ///
    /// ```
    /// # use jumperloft::{Party, Refusal, Slot, State, Walk};
    /// # let mut state = State::new(64)?;
    /// # let mut plug_in = state.party(Party::new(1)?);
    /// # let ([empty, one, ..], walk) = (Slot::ALL, Walk::ALL[0]);
    /// plug_in.new_vector(empty, 5)?;
    /// plug_in.push_back(empty, one, 7)?;
    /// plug_in.open_walk(one, walk)?;
    /// plug_in.release(one)?;
    /// assert_eq!(plug_in.next(walk), Ok(7));
    /// assert_eq!(plug_in.next_back(walk), Err(Refusal::NothingThere));
    /// plug_in.close_walk(walk)?;
    /// # Ok::<(), Refusal>(())
    /// ```
    pub fn open_walk(&mut self, slot: Slot, walk: Walk) -> Result<(), Refusal> {
        self.does(Frame::open_walk(self.party(), slot, walk))
    }

    /// The next element from the front, [`Refusal::NothingThere`] once all are taken.
    pub fn next(&mut self, walk: Walk) -> Result<u32, Refusal> {
        self.reads(Frame::next(self.party(), walk))
    }

    /// The next element from the back, [`Refusal::NothingThere`] once all are taken.
    pub fn next_back(&mut self, walk: Walk) -> Result<u32, Refusal> {
        self.reads(Frame::next_back(self.party(), walk))
    }

    /// Closes a walk, and frees the nodes that nothing else reaches.
    pub fn close_walk(&mut self, walk: Walk) -> Result<(), Refusal> {
        self.does(Frame::close_walk(self.party(), walk))
    }
}
