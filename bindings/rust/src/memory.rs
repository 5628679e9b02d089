//! What a host lends.

use std::fmt;

use crate::ffi;

/// The record of a version slot.
#[repr(C)]
#[derive(Clone, Copy, Debug, Default, PartialEq, Eq, Hash)]
pub struct Version {
    /// 1 if the slot is live, 0 if it is empty.
    pub live: u32,
    /// The number of the root node.
    pub root: u32,
    /// The bits, 1 to 5.
    pub bits: u32,
    /// The number of elements.
    pub length: u32,
}

/// How many elements each slice of a state has.
///
/// ```
/// use jumperloft::{Memory, Sizes};
///
/// let sizes = Sizes::of(256).unwrap();
/// assert_eq!((sizes.nodes, sizes.cells), (256, 256 * Memory::NODE_CELLS));
/// assert_eq!(Sizes::of(Memory::MOST_NODES + 1), None);
/// ```
#[repr(C)]
#[derive(Clone, Copy, Debug, PartialEq, Eq, Hash)]
pub struct Sizes {
    /// The nodes: how many kinds there are.
    pub nodes: usize,
    /// One for each node.
    pub used: usize,
    /// [`Memory::NODE_CELLS`] for each node.
    pub cells: usize,
    /// One for each node.
    pub counts: usize,
    /// One for each node.
    pub order: usize,
    /// [`Memory::VERSIONS`].
    pub versions: usize,
    /// [`Memory::WALK_NUMBERS`].
    pub walk_numbers: usize,
    /// [`Memory::WALK_LEVELS`].
    pub walk_nodes: usize,
    /// [`Memory::WALK_LEVELS`].
    pub walk_indices: usize,
}

impl Sizes {
    /// The sizes of a state of so many nodes, 1 to [`Memory::MOST_NODES`]; no other number has any.
    pub fn of(nodes: usize) -> Option<Sizes> {
        let sizes = ffi::sizes(nodes);
        (sizes.nodes != 0).then_some(sizes)
    }
}

/// The nine slices of a lent state. They may hold anything and have any lengths: what doesn't fit is refused, never relied on.
///
/// [`StateRef::form`](crate::StateRef::form) makes a state of them, and shows by an example how they are lent.
#[derive(PartialEq, Eq)]
pub struct Memory<'a> {
    /// A node's kind. One for each of N nodes, N from 1 to 65,536.
    pub kinds: &'a mut [u8],
    /// A node's used cells. N of them.
    pub used: &'a mut [u8],
    /// The links to a node. N of them.
    pub counts: &'a mut [u32],
    /// The nodes' cells. 32 N of them.
    pub cells: &'a mut [u32],
    /// The free order. N of them.
    pub order: &'a mut [u32],
    /// The version table, [`Memory::VERSIONS`] records.
    pub versions: &'a mut [Version],
    /// The walks' numbers, [`Memory::WALK_NUMBERS`] of them.
    pub walk_numbers: &'a mut [u32],
    /// The nodes on the walks' stacks, [`Memory::WALK_LEVELS`] of them.
    pub walk_nodes: &'a mut [u32],
    /// The indices on the walks' stacks, [`Memory::WALK_LEVELS`] of them.
    pub walk_indices: &'a mut [i32],
}

impl Memory<'_> {
    /// The greatest number of nodes.
    pub const MOST_NODES: usize = 65_536;
    /// The cells of a node.
    pub const NODE_CELLS: usize = 32;
    /// The records of the version table: eight slots of each of eight parties.
    pub const VERSIONS: usize = 64;
    /// Six numbers for each of sixteen walks.
    pub const WALK_NUMBERS: usize = 16 * 6;
    /// Two stacks of fifteen levels for each of sixteen walks.
    pub const WALK_LEVELS: usize = 16 * 2 * 15;

    /// The same slices, lent on for a shorter time.
    pub fn reborrow(&mut self) -> Memory<'_> {
        Memory {
            kinds: self.kinds,
            used: self.used,
            counts: self.counts,
            cells: self.cells,
            order: self.order,
            versions: self.versions,
            walk_numbers: self.walk_numbers,
            walk_nodes: self.walk_nodes,
            walk_indices: self.walk_indices,
        }
    }
}

impl fmt::Debug for Memory<'_> {
    fn fmt(&self, f: &mut fmt::Formatter<'_>) -> fmt::Result {
        in_short("Memory", self.kinds, self.versions, f)
    }
}

/// What is worth showing of a state, which may have two million cells.
pub(crate) fn in_short(
    name: &str,
    kinds: &[u8],
    versions: &[Version],
    f: &mut fmt::Formatter<'_>,
) -> fmt::Result {
    let live = versions.iter().filter(|version| version.live != 0).count();
    f.debug_struct(name)
        .field("nodes", &kinds.len())
        .field("live_slots", &live)
        .finish_non_exhaustive()
}
