//! A state in what is lent.

use std::fmt;

use crate::ffi::{self, Report};
use crate::memory::in_short;
use crate::{Answer, Batch, Frame, Host, Memory, Party, PartyHandle, Refusal, Served};

const NUMBERS_KEPT: &str = "the library gives back document 01's numbers alone";

/// A state in memory that someone else lends.
pub struct StateRef<'a> {
    memory: Memory<'a>,
}

impl<'a> StateRef<'a> {
    /// A fresh state: all slots empty, all walks closed, all nodes free. Slices that don't fit are refused with
    /// [`Refusal::IllFormed`] and stay as they are.
    ///
    /// ```
    /// use jumperloft::{Memory, Refusal, StateRef, Version};
    ///
    /// const NODES: usize = 64;
    /// let memory = Memory {
    ///     kinds: &mut [0; NODES],
    ///     used: &mut [0; NODES],
    ///     counts: &mut [0; NODES],
    ///     cells: &mut [0; NODES * Memory::NODE_CELLS],
    ///     order: &mut [0; NODES],
    ///     versions: &mut [Version::default(); Memory::VERSIONS],
    ///     walk_numbers: &mut [0; Memory::WALK_NUMBERS],
    ///     walk_nodes: &mut [0; Memory::WALK_LEVELS],
    ///     walk_indices: &mut [0; Memory::WALK_LEVELS],
    /// };
    /// let mut state = StateRef::form(memory)?;
    /// assert_eq!(state.host().free_nodes()?, 64);
    /// # Ok::<(), Refusal>(())
    /// ```
    pub fn form(mut memory: Memory<'a>) -> Result<StateRef<'a>, Refusal> {
        frames_of(ffi::form(&mut memory))?;
        Ok(StateRef::of(memory))
    }

    /// The state that stands in this memory already; refused with [`Refusal::IllFormed`] if none does.
    ///
    /// ```
    /// use jumperloft::{Refusal, State, StateRef};
    ///
    /// let mut state = State::new(64)?;
    /// let memory = state.lend().into_memory();
    /// memory.counts[0] = 1;
    /// assert_eq!(StateRef::resume(memory).err(), Some(Refusal::IllFormed));
    /// # Ok::<(), Refusal>(())
    /// ```
    pub fn resume(memory: Memory<'a>) -> Result<StateRef<'a>, Refusal> {
        let mut state = StateRef::of(memory);
        state.audit()?;
        Ok(state)
    }

    pub(crate) fn of(memory: Memory<'a>) -> StateRef<'a> {
        StateRef { memory }
    }

    /// The memory, given back with the state in it.
    pub fn into_memory(self) -> Memory<'a> {
        self.memory
    }

    /// The same state, lent on for a shorter time.
    pub fn lend(&mut self) -> StateRef<'_> {
        StateRef::of(self.memory.reborrow())
    }

    /// A handle that speaks for one party alone.
    pub fn party(&mut self, party: Party) -> PartyHandle<'_> {
        PartyHandle::of(self.lend(), party)
    }

    /// The host's own calls.
    pub fn host(&mut self) -> Host<'_> {
        Host::of(self.lend())
    }

    /// Whether the state is well-formed; [`Refusal::IllFormed`] if not.
    pub fn audit(&mut self) -> Result<(), Refusal> {
        self.run_into(&[], &mut []).map(drop)
    }

    /// Runs one frame, without allocation.
    pub fn ask(&mut self, frame: Frame) -> Result<Served, Refusal> {
        let [answer] = self.ask_each([frame])?;
        answer.result()
    }

    /// Runs a few frames in order, without allocation, and answers each.
    pub(crate) fn ask_each<const COUNT: usize>(
        &mut self,
        frames: [Frame; COUNT],
    ) -> Result<[Answer; COUNT], Refusal> {
        let mut room = [[0; Answer::SIZE]; COUNT];
        let requests = frames.map(Frame::to_bytes);
        self.run_into(requests.as_flattened(), room.as_flattened_mut())?;
        Ok(room.map(|bytes| Answer::from_bytes(bytes).expect(NUMBERS_KEPT)))
    }

    /// Runs the frames in order and answers each; a refused frame is answered too, and the next one runs.
    pub fn run(&mut self, batch: &Batch) -> Result<Vec<Answer>, Refusal> {
        let mut room = vec![0; Answer::SIZE * batch.len()];
        self.run_into(batch.as_bytes(), &mut room)?;
        let answers = Answer::each_in(&room);
        Ok(answers.map(|answer| answer.expect(NUMBERS_KEPT)).collect())
    }

    /// The same over bytes, without allocation: tells how many frames ran, and answers each at its 6 bytes of the room. The room
    /// beyond stays as it is; a batch that is refused writes nothing.
    ///
    /// ```
    /// use jumperloft::{Answer, Frame, Party, Refusal, Slot, State};
    ///
    /// let mut state = State::new(64)?;
    /// let requests = Frame::new_vector(Party::HOST, Slot::ALL[0], 5).to_bytes();
    /// let mut room = [0xFF; 2 * Answer::SIZE];
    /// assert_eq!(state.run_into(&requests, &mut room), Ok(1));
    /// assert_eq!(room, [0, 1, 0, 0, 0, 0, 0xFF, 0xFF, 0xFF, 0xFF, 0xFF, 0xFF]);
    /// assert_eq!(state.run_into(&requests, &mut []), Err(Refusal::NoRoom));
    /// assert_eq!(state.run_into(&requests[1..], &mut room), Err(Refusal::Ragged));
    /// # Ok::<(), Refusal>(())
    /// ```
    pub fn run_into(&mut self, requests: &[u8], room: &mut [u8]) -> Result<usize, Refusal> {
        frames_of(ffi::batch(&mut self.memory, requests, room))
    }
}

/// How many frames ran, or why none did.
fn frames_of(report: Report) -> Result<usize, Refusal> {
    if report.number == 0 {
        return Ok(report.frames);
    }
    Err(Refusal::try_from(report.number).expect(NUMBERS_KEPT))
}

impl fmt::Debug for StateRef<'_> {
    fn fmt(&self, f: &mut fmt::Formatter<'_>) -> fmt::Result {
        in_short("StateRef", self.memory.kinds, self.memory.versions, f)
    }
}
