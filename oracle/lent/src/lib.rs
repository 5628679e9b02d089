//! The lent state of document 01 as owned slices, any bytes whatever; what can be read from it, and the exported calls on it.

pub mod ffi;
mod serve;

use formulas::height;

pub const NODE_CELLS: usize = 32;
pub const SLOTS: usize = 64;
pub const WALKS: usize = 16;
pub const VERSION_NUMBERS: usize = 4;
pub const WALK_NUMBERS: usize = 6;
/// Levels of one stack; a walk has a forward and a backward one.
pub const WALK_LEVELS: usize = 15;
pub const SLICES: usize = 9;
const ALL_LEVELS: usize = WALKS * 2 * WALK_LEVELS;
const FREE: u8 = 0;

/// A version record.
#[repr(C)]
#[derive(Clone, Copy, Debug, Default, PartialEq, Eq)]
pub struct Version {
    pub live: u32,
    pub root: u32,
    pub bits: u32,
    pub length: u32,
}

#[derive(Debug, PartialEq, Eq)]
pub struct Lent {
    pub kinds: Vec<u8>,
    pub used: Vec<u8>,
    pub counts: Vec<u32>,
    pub cells: Vec<u32>,
    pub order: Vec<u32>,
    /// Live, root, bits and length of each slot.
    pub versions: Vec<u32>,
    /// Live, root, bits, length, taken from the front and from the back, of each walk.
    pub walk_numbers: Vec<u32>,
    pub walk_nodes: Vec<u32>,
    pub walk_indices: Vec<i32>,
}

impl Clone for Lent {
    fn clone(&self) -> Lent {
        let mut copy = Lent::fresh(0);
        copy.clone_from(self);
        copy
    }

    /// Allocates nothing where the sizes are the same.
    fn clone_from(&mut self, source: &Lent) {
        self.kinds.clone_from(&source.kinds);
        self.used.clone_from(&source.used);
        self.counts.clone_from(&source.counts);
        self.cells.clone_from(&source.cells);
        self.order.clone_from(&source.order);
        self.versions.clone_from(&source.versions);
        self.walk_numbers.clone_from(&source.walk_numbers);
        self.walk_nodes.clone_from(&source.walk_nodes);
        self.walk_indices.clone_from(&source.walk_indices);
    }
}

impl Lent {
    /// All slots empty, all walks closed, all nodes free.
    pub fn fresh(nodes: usize) -> Lent {
        Lent {
            kinds: vec![FREE; nodes],
            used: vec![0; nodes],
            counts: vec![0; nodes],
            cells: vec![0; NODE_CELLS * nodes],
            order: (0..nodes as u32).collect(),
            versions: vec![0; SLOTS * VERSION_NUMBERS],
            walk_numbers: vec![0; WALKS * WALK_NUMBERS],
            walk_nodes: vec![0; ALL_LEVELS],
            walk_indices: vec![0; ALL_LEVELS],
        }
    }

    /// Slices of the right sizes that hold what no well-formed state does.
    pub fn unformed(nodes: usize) -> Lent {
        const JUNK: u32 = 0xA5A5_A5A5;
        let junk = |numbers| vec![JUNK; numbers];
        Lent {
            kinds: vec![0xA5; nodes],
            used: vec![0xA5; nodes],
            counts: junk(nodes),
            cells: junk(NODE_CELLS * nodes),
            order: junk(nodes),
            versions: junk(SLOTS * VERSION_NUMBERS),
            walk_numbers: junk(WALKS * WALK_NUMBERS),
            walk_nodes: junk(ALL_LEVELS),
            walk_indices: vec![-1; ALL_LEVELS],
        }
    }

    /// Takes the last element of one of the slices.
    pub fn shorten(&mut self, slice: usize) {
        match slice {
            0 => drop(self.kinds.pop()),
            1 => drop(self.used.pop()),
            2 => drop(self.counts.pop()),
            3 => drop(self.cells.pop()),
            4 => drop(self.order.pop()),
            5 => self
                .versions
                .truncate(self.versions.len() - VERSION_NUMBERS),
            6 => drop(self.walk_numbers.pop()),
            7 => drop(self.walk_nodes.pop()),
            _ => drop(self.walk_indices.pop()),
        }
    }

    pub fn nodes(&self) -> usize {
        self.kinds.len()
    }

    pub fn free_nodes(&self) -> usize {
        self.kinds.iter().filter(|kind| **kind == FREE).count()
    }

    pub fn version(&self, slot: usize) -> Version {
        version_of(&self.versions[VERSION_NUMBERS * slot..])
    }

    pub fn walked_version(&self, walk: usize) -> Version {
        version_of(&self.walk_numbers[WALK_NUMBERS * walk..])
    }

    pub fn set_version(&mut self, slot: usize, version: Version) {
        let numbers = [version.live, version.root, version.bits, version.length];
        self.versions[VERSION_NUMBERS * slot..][..VERSION_NUMBERS].copy_from_slice(&numbers);
    }

    pub fn is_open(&self, walk: usize) -> bool {
        self.walked_version(walk).live == 1
    }

    /// The elements of a version of a well-formed state, in order.
    pub fn elements(&self, version: Version) -> Vec<u32> {
        let mut nodes = vec![version.root];
        for _ in 0..height(version.bits, version.length) {
            nodes = self.used_cells(&nodes);
        }
        self.used_cells(&nodes)
    }

    fn used_cells(&self, nodes: &[u32]) -> Vec<u32> {
        let used = |node: &u32| {
            let node = *node as usize;
            &self.cells[NODE_CELLS * node..][..usize::from(self.used[node])]
        };
        nodes.iter().flat_map(used).copied().collect()
    }
}

fn version_of(numbers: &[u32]) -> Version {
    Version {
        live: numbers[0],
        root: numbers[1],
        bits: numbers[2],
        length: numbers[3],
    }
}
