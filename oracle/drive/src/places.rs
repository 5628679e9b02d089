//! Every place of a lent state, and values to put there.

use frames::rng::Rng;
use lent::{Lent, NODE_CELLS, VERSION_NUMBERS, WALK_LEVELS, WALK_NUMBERS};
use std::mem::replace;

#[derive(Clone, Copy, Debug, PartialEq, Eq)]
pub enum Area {
    Versions,
    Counts,
    Kinds,
    Used,
    Cells,
    Order,
    WalkNumbers,
    WalkNodes,
    WalkIndices,
}

pub const AREAS: [Area; 9] = [
    Area::Versions,
    Area::Counts,
    Area::Kinds,
    Area::Used,
    Area::Cells,
    Area::Order,
    Area::WalkNumbers,
    Area::WalkNodes,
    Area::WalkIndices,
];

/// Ways to damage a number.
pub const WAYS: usize = 5;
/// The way that puts another legal value.
pub const LEGAL: usize = 3;

const RECORD_FIELDS: [&str; 6] = ["live", "root", "bits", "length", "front", "back"];
const NODE_KINDS: [&str; 3] = ["free node", "leaf", "branch"];

impl Area {
    pub fn len(self, lent: &Lent) -> usize {
        match self {
            Area::Versions => lent.versions.len(),
            Area::Counts => lent.counts.len(),
            Area::Kinds => lent.kinds.len(),
            Area::Used => lent.used.len(),
            Area::Cells => lent.cells.len(),
            Area::Order => lent.order.len(),
            Area::WalkNumbers => lent.walk_numbers.len(),
            Area::WalkNodes => lent.walk_nodes.len(),
            Area::WalkIndices => lent.walk_indices.len(),
        }
    }

    /// Stores a number, its low byte where bytes stand, and answers what stood there.
    pub fn put(self, lent: &mut Lent, at: usize, value: u32) -> u32 {
        match self {
            Area::Versions => replace(&mut lent.versions[at], value),
            Area::Counts => replace(&mut lent.counts[at], value),
            Area::Kinds => replace(&mut lent.kinds[at], value as u8).into(),
            Area::Used => replace(&mut lent.used[at], value as u8).into(),
            Area::Cells => replace(&mut lent.cells[at], value),
            Area::Order => replace(&mut lent.order[at], value),
            Area::WalkNumbers => replace(&mut lent.walk_numbers[at], value),
            Area::WalkNodes => replace(&mut lent.walk_nodes[at], value),
            Area::WalkIndices => {
                replace(&mut lent.walk_indices[at], value.cast_signed()).cast_unsigned()
            }
        }
    }

    /// How many numbers are one element of the slice that a host lends.
    pub fn unit(self) -> usize {
        match self {
            Area::Versions => VERSION_NUMBERS,
            _ => 1,
        }
    }

    pub fn resize(self, lent: &mut Lent, len: usize) {
        match self {
            Area::Versions => lent.versions.resize(len, 0),
            Area::Counts => lent.counts.resize(len, 0),
            Area::Kinds => lent.kinds.resize(len, 0),
            Area::Used => lent.used.resize(len, 0),
            Area::Cells => lent.cells.resize(len, 0),
            Area::Order => lent.order.resize(len, 0),
            Area::WalkNumbers => lent.walk_numbers.resize(len, 0),
            Area::WalkNodes => lent.walk_nodes.resize(len, 0),
            Area::WalkIndices => lent.walk_indices.resize(len, 0),
        }
    }

    /// One more, one less, 0, another legal value, and a random one.
    pub fn value(self, lent: &Lent, at: usize, old: u32, way: usize, rng: &mut Rng) -> u32 {
        match way {
            0 => old.wrapping_add(1),
            1 => old.wrapping_sub(1),
            2 => 0,
            LEGAL => self.legal(lent, at, rng),
            _ => rng.word(),
        }
    }

    fn legal(self, lent: &Lent, at: usize, rng: &mut Rng) -> u32 {
        let node = rng.below(lent.nodes().max(1)) as u32;
        let record = |field: usize, rng: &mut Rng| match field {
            0 => rng.below(2) as u32,
            1 => node,
            2 => 1 + rng.below(5) as u32,
            3 if rng.below(8) == 0 => rng.below(32_769) as u32,
            _ => rng.below(40) as u32,
        };
        match self {
            Area::Versions => record(at % VERSION_NUMBERS, rng),
            Area::WalkNumbers => record(at % WALK_NUMBERS, rng),
            Area::Counts => rng.below(12) as u32,
            Area::Kinds => rng.below(3) as u32,
            Area::Used => rng.below(33) as u32,
            Area::WalkIndices => (rng.below(33) as i32 - 1).cast_unsigned(),
            Area::Cells | Area::Order | Area::WalkNodes => node,
        }
    }

    /// What stands at a place of a well-formed state.
    pub fn name(self, lent: &Lent, at: usize) -> String {
        let node = |n: usize| NODE_KINDS[usize::from(lent.kinds[n])];
        let slot = |n: usize| ["empty slot", "slot"][lent.version(n).live as usize];
        let walk = |n: usize| ["closed walk", "walk"][lent.walked_version(n).live as usize];
        let levels = 2 * WALK_LEVELS;
        match self {
            Area::Versions => {
                let field = RECORD_FIELDS[at % VERSION_NUMBERS];
                format!("{field} of {}", slot(at / VERSION_NUMBERS))
            }
            Area::WalkNumbers => {
                let field = RECORD_FIELDS[at % WALK_NUMBERS];
                format!("{field} of {}", walk(at / WALK_NUMBERS))
            }
            Area::Counts => format!("count of {}", node(at)),
            Area::Kinds => format!("kind of {}", node(at)),
            Area::Used => format!("used of {}", node(at)),
            Area::Order if at < lent.free_nodes() => String::from("free order"),
            Area::Order => String::from("order past the free nodes"),
            Area::WalkNodes => format!("level node of {}", walk(at / levels)),
            Area::WalkIndices => format!("level index of {}", walk(at / levels)),
            Area::Cells => {
                let n = at / NODE_CELLS;
                let used = at % NODE_CELLS < usize::from(lent.used[n]);
                let part = ["unused cell", "cell"][usize::from(used)];
                format!("{part} of {}", node(n))
            }
        }
    }
}
