//! All that is lent, to be compared later.

use jumperloft::{Memory, Version};

#[derive(Clone, PartialEq, Debug)]
pub struct Snapshot {
    pub kinds: Vec<u8>,
    pub used: Vec<u8>,
    pub counts: Vec<u32>,
    pub cells: Vec<u32>,
    pub order: Vec<u32>,
    pub versions: Vec<Version>,
    pub walk_numbers: Vec<u32>,
    pub walk_nodes: Vec<u32>,
    pub walk_indices: Vec<i32>,
}

impl Snapshot {
    pub fn of(memory: Memory<'_>) -> Snapshot {
        Snapshot {
            kinds: memory.kinds.to_vec(),
            used: memory.used.to_vec(),
            counts: memory.counts.to_vec(),
            cells: memory.cells.to_vec(),
            order: memory.order.to_vec(),
            versions: memory.versions.to_vec(),
            walk_numbers: memory.walk_numbers.to_vec(),
            walk_nodes: memory.walk_nodes.to_vec(),
            walk_indices: memory.walk_indices.to_vec(),
        }
    }

    /// Memory for so many nodes, with sevens in it and no state.
    pub fn of_sevens(nodes: usize) -> Snapshot {
        let seven = Version {
            live: 7,
            root: 7,
            bits: 7,
            length: 7,
        };
        Snapshot {
            kinds: vec![7; nodes],
            used: vec![7; nodes],
            counts: vec![7; nodes],
            cells: vec![7; nodes * Memory::NODE_CELLS],
            order: vec![7; nodes],
            versions: vec![seven; Memory::VERSIONS],
            walk_numbers: vec![7; Memory::WALK_NUMBERS],
            walk_nodes: vec![7; Memory::WALK_LEVELS],
            walk_indices: vec![7; Memory::WALK_LEVELS],
        }
    }
}
