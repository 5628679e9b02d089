//! What the host alone may ask.

use crate::{Frame, Party, PartyHandle, Refusal, Slot, StateRef};

/// The host of a state: its own calls, and those of party 0.
#[derive(Debug)]
pub struct Host<'a> {
    state: StateRef<'a>,
}

impl<'a> Host<'a> {
    pub(crate) fn of(state: StateRef<'a>) -> Host<'a> {
        Host { state }
    }

    /// Gives the version in one party's slot to an empty slot of another, which shares its nodes.
    ///
    /// ```
    /// use jumperloft::{Party, Refusal, Slot, State};
    ///
    /// let mut state = State::new(64)?;
    /// let ([_, writer, reader, ..], slot) = (Party::ALL, Slot::ALL[0]);
    /// state.party(writer).new_vector(slot, 5)?;
    /// state.host().hand_over(writer, slot, reader, slot)?;
    /// assert_eq!(state.party(reader).len(slot)?, 0);
    /// # Ok::<(), Refusal>(())
    /// ```
    pub fn hand_over(
        &mut self,
        giver: Party,
        from: Slot,
        receiver: Party,
        to: Slot,
    ) -> Result<(), Refusal> {
        self.state
            .ask(Frame::hand_over(giver, from, receiver, to))
            .map(drop)
    }

    /// How many nodes are free.
    ///
    /// ```
    /// use jumperloft::{Party, Refusal, Slot, State};
    ///
    /// let mut state = State::new(64)?;
    /// state.party(Party::HOST).new_vector(Slot::ALL[0], 5)?;
    /// assert_eq!(state.host().free_nodes()?, 63);
    /// # Ok::<(), Refusal>(())
    /// ```
    pub fn free_nodes(&mut self) -> Result<u32, Refusal> {
        self.state
            .ask(Frame::free_nodes())
            .map(|served| served.value)
    }

    /// The host as party 0, with slots and walks of its own.
    pub fn as_party(&mut self) -> PartyHandle<'_> {
        self.state.party(Party::HOST)
    }
}
