//! A state in memory of its own.

use std::fmt;

use crate::memory::in_short;
use crate::{
    Answer, Batch, Frame, Host, Memory, Party, PartyHandle, Refusal, Served, Sizes, StateRef,
    Version,
};

/// A state that owns its memory. It offers the calls of [`StateRef`].
///
/// ```
/// # use jumperloft::{Refusal, State};
/// let state = State::new(65_536)?;
/// assert_eq!(format!("{state:?}"), "State { nodes: 65536, live_slots: 0, .. }");
/// # Ok::<(), Refusal>(())
/// ```
#[derive(Clone)]
pub struct State {
    kinds: Vec<u8>,
    used: Vec<u8>,
    counts: Vec<u32>,
    cells: Vec<u32>,
    order: Vec<u32>,
    versions: Vec<Version>,
    walk_numbers: Vec<u32>,
    walk_nodes: Vec<u32>,
    walk_indices: Vec<i32>,
}

impl State {
    /// A fresh state of so many nodes, 1 to 65,536; another number is refused with [`Refusal::IllFormed`].
    ///
    /// ```
    /// use jumperloft::{Refusal, State};
    ///
    /// assert_eq!(State::new(256)?.host().free_nodes()?, 256);
    /// assert_eq!(State::new(0).err(), Some(Refusal::IllFormed));
    /// # Ok::<(), Refusal>(())
    /// ```
    pub fn new(nodes: usize) -> Result<State, Refusal> {
        let sizes = Sizes::of(nodes).ok_or(Refusal::IllFormed)?;
        let mut state = State {
            kinds: blank(sizes.nodes),
            used: blank(sizes.used),
            counts: blank(sizes.counts),
            cells: blank(sizes.cells),
            order: blank(sizes.order),
            versions: blank(sizes.versions),
            walk_numbers: blank(sizes.walk_numbers),
            walk_nodes: blank(sizes.walk_nodes),
            walk_indices: blank(sizes.walk_indices),
        };
        StateRef::form(state.lend().into_memory())?;
        Ok(state)
    }

    /// The state, lent for a while.
    pub fn lend(&mut self) -> StateRef<'_> {
        let memory = Memory {
            kinds: &mut self.kinds,
            used: &mut self.used,
            counts: &mut self.counts,
            cells: &mut self.cells,
            order: &mut self.order,
            versions: &mut self.versions,
            walk_numbers: &mut self.walk_numbers,
            walk_nodes: &mut self.walk_nodes,
            walk_indices: &mut self.walk_indices,
        };
        StateRef::of(memory)
    }

    /// A handle that speaks for one party alone.
    pub fn party(&mut self, party: Party) -> PartyHandle<'_> {
        PartyHandle::of(self.lend(), party)
    }

    /// The host's own calls.
    pub fn host(&mut self) -> Host<'_> {
        Host::of(self.lend())
    }

    /// See [`StateRef::audit`].
    pub fn audit(&mut self) -> Result<(), Refusal> {
        self.lend().audit()
    }

    /// See [`StateRef::ask`].
    pub fn ask(&mut self, frame: Frame) -> Result<Served, Refusal> {
        self.lend().ask(frame)
    }

    /// See [`StateRef::run`].
    pub fn run(&mut self, batch: &Batch) -> Result<Vec<Answer>, Refusal> {
        self.lend().run(batch)
    }

    /// See [`StateRef::run_into`].
    pub fn run_into(&mut self, requests: &[u8], room: &mut [u8]) -> Result<usize, Refusal> {
        self.lend().run_into(requests, room)
    }
}

/// So many zeros, or records of zeros.
fn blank<T: Clone + Default>(count: usize) -> Vec<T> {
    vec![T::default(); count]
}

impl fmt::Debug for State {
    fn fmt(&self, f: &mut fmt::Formatter<'_>) -> fmt::Result {
        in_short("State", &self.kinds, &self.versions, f)
    }
}
