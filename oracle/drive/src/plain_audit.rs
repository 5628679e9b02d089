//! Document 01's well-formed state as a plain program, slow and simple: it shares nothing with the audit that it is held against.

use lent::{Lent, Version, NODE_CELLS, SLOTS, VERSION_NUMBERS};
use lent::{WALKS, WALK_LEVELS, WALK_NUMBERS};

const MOST_NODES: usize = 65_536;
const FREE: u8 = 0;
const LEAF: u8 = 1;
const BRANCH: u8 = 2;

/// How many nodes are free, or what is wrong.
pub type Verdict = Result<usize, &'static str>;

pub fn audit(lent: &Lent) -> Verdict {
    sizes_fit(lent)?;
    let mut reached = Reached {
        lent,
        nodes: vec![false; lent.nodes()],
        links: vec![0; lent.nodes()],
    };
    for slot in 0..SLOTS {
        reached.slot(slot)?;
    }
    for walk in 0..WALKS {
        reached.walk(walk)?;
    }
    reached.link_children();
    reached.each_node()?;
    free_order(lent, &reached.nodes)
}

fn demand(holds: bool, flaw: &'static str) -> Result<(), &'static str> {
    if holds {
        Ok(())
    } else {
        Err(flaw)
    }
}

fn sizes_fit(s: &Lent) -> Result<(), &'static str> {
    let n = s.nodes();
    let levels = WALKS * 2 * WALK_LEVELS;
    demand((1..=MOST_NODES).contains(&n), "nodes out of range")?;
    let each_node = [s.used.len(), s.counts.len(), s.order.len()];
    demand(each_node == [n, n, n], "a size that is not N")?;
    demand(s.cells.len() == NODE_CELLS * n, "cells")?;
    demand(s.versions.len() == SLOTS * VERSION_NUMBERS, "slots")?;
    demand(s.walk_numbers.len() == WALKS * WALK_NUMBERS, "walks")?;
    demand(s.walk_nodes.len() == levels, "walk nodes")?;
    demand(s.walk_indices.len() == levels, "walk indices")
}

struct Reached<'a> {
    lent: &'a Lent,
    nodes: Vec<bool>,
    links: Vec<u32>,
}

/// The height by trial: the least at which the length fits.
fn height(bits: u32, length: u32) -> u32 {
    let fits = |height: &u32| u64::from(length) <= full(bits, *height);
    (0..).find(fits).expect("a length is finite")
}

/// How many elements a full tree of that height holds.
fn full(bits: u32, height: u32) -> u64 {
    1 << (bits * (height + 1))
}

impl Reached<'_> {
    fn slot(&mut self, slot: usize) -> Result<(), &'static str> {
        let version = self.lent.version(slot);
        if version.live == 0 {
            return demand(version == Version::default(), "empty slot is not 0");
        }
        self.version(version)
    }

    fn version(&mut self, version: Version) -> Result<(), &'static str> {
        let Version {
            live,
            root,
            bits,
            length,
        } = version;
        demand(live == 1, "neither live nor empty")?;
        demand((1..=5).contains(&bits), "bits")?;
        demand(length <= 32_768, "length")?;
        self.tree(root, bits, height(bits, length), u64::from(length))?;
        self.links[root as usize] += 1;
        Ok(())
    }

    /// Whether a node is a tree of that height over so many elements; marks what it reaches.
    fn tree(&mut self, node: u32, bits: u32, height: u32, m: u64) -> Result<(), &'static str> {
        let n = node as usize;
        demand(n < self.lent.nodes(), "no such node")?;
        self.nodes[n] = true;
        let used = u64::from(self.lent.used[n]);
        demand(used <= 1 << bits, "more cells in use than the degree")?;
        if height == 0 {
            demand(self.lent.kinds[n] == LEAF, "not a leaf")?;
            return demand(used == m, "a leaf of another length");
        }
        demand(self.lent.kinds[n] == BRANCH, "not a branch")?;
        let each = full(bits, height - 1);
        demand(used == m.div_ceil(each), "another number of children")?;
        for child in 0..used {
            let node = self.lent.cells[NODE_CELLS * n + child as usize];
            self.tree(node, bits, height - 1, each.min(m - child * each))?;
        }
        Ok(())
    }

    fn walk(&mut self, walk: usize) -> Result<(), &'static str> {
        let version = self.lent.walked_version(walk);
        let numbers = &self.lent.walk_numbers[WALK_NUMBERS * walk..];
        let (front, back) = (u64::from(numbers[4]), u64::from(numbers[5]));
        if version.live == 0 {
            let zero = version == Version::default() && front == 0 && back == 0;
            demand(zero, "closed walk's numbers are not 0")?;
        } else {
            self.version(version)?;
            let taken = front + back <= u64::from(version.length);
            demand(taken, "more taken than there is")?;
        }
        self.stack(2 * walk, version, front, front)?;
        let last = u64::from(version.length).wrapping_sub(1);
        self.stack(2 * walk + 1, version, back, last.wrapping_sub(back))
    }

    /// A stack is the way to the next element, from the leaf up; all 0 before anything and after everything is taken.
    fn stack(&self, stack: usize, v: Version, taken: u64, next: u64) -> Result<(), &'static str> {
        let (mut nodes, mut indices) = ([0; WALK_LEVELS], [0; WALK_LEVELS]);
        if v.live == 1 && taken != 0 && taken != u64::from(v.length) {
            let mut node = v.root;
            for level in (0..=height(v.bits, v.length)).rev() {
                let bucket = (next >> (level * v.bits)) % (1 << v.bits);
                nodes[level as usize] = node;
                indices[level as usize] = bucket as i32;
                node = self.lent.cells[NODE_CELLS * node as usize + bucket as usize];
            }
        }
        let levels = WALK_LEVELS * stack..WALK_LEVELS * (stack + 1);
        let has_nodes = self.lent.walk_nodes[levels.clone()] == nodes;
        let has_indices = self.lent.walk_indices[levels] == indices;
        demand(has_nodes, "node of a level")?;
        demand(has_indices, "index of a level")
    }

    /// The links from cells: each reached branch counts once, however many reach it.
    fn link_children(&mut self) {
        for n in 0..self.nodes.len() {
            if self.nodes[n] && self.lent.kinds[n] == BRANCH {
                let cells = &self.lent.cells[NODE_CELLS * n..][..usize::from(self.lent.used[n])];
                for child in cells {
                    self.links[*child as usize] += 1;
                }
            }
        }
    }

    fn each_node(&self) -> Result<(), &'static str> {
        for n in 0..self.nodes.len() {
            let used = usize::from(self.lent.used[n]);
            demand(self.lent.counts[n] == self.links[n], "count")?;
            if self.nodes[n] {
                let unused = &self.lent.cells[NODE_CELLS * n..][used..NODE_CELLS];
                let zero = unused.iter().all(|cell| *cell == 0);
                demand(zero, "a cell from used upwards is not 0")?;
            } else {
                demand(self.lent.kinds[n] == FREE, "unreached and not free")?;
                demand(used == 0, "a free node's used is not 0")?;
            }
        }
        Ok(())
    }
}

/// Each unreached node stands once in the order's first places, as many as there are such nodes.
fn free_order(lent: &Lent, reached: &[bool]) -> Verdict {
    let free = reached.iter().filter(|reached| !**reached).count();
    let mut seen = vec![false; lent.nodes()];
    for node in &lent.order[..free] {
        let n = *node as usize;
        demand(n < lent.nodes(), "no such node in the free order")?;
        demand(!reached[n], "a reached node in the free order")?;
        demand(!seen[n], "twice in the free order")?;
        seen[n] = true;
    }
    Ok(free)
}

#[cfg(test)]
mod tests {
    use super::*;

    /// Two slots and a walk, one element taken from each end, of [7, 8, 9] at bits 1: leaves 0 and 1, branch 2; node 3 is free.
    fn small() -> Lent {
        let mut lent = Lent::fresh(4);
        lent.kinds = vec![LEAF, LEAF, BRANCH, FREE];
        lent.used = vec![2, 1, 2, 0];
        lent.counts = vec![1, 1, 3, 0];
        lent.order = vec![3, 9, 9, 9];
        lent.cells[..2].copy_from_slice(&[7, 8]);
        lent.cells[NODE_CELLS] = 9;
        lent.cells[2 * NODE_CELLS..][..2].copy_from_slice(&[0, 1]);
        lent.versions[..4].copy_from_slice(&[1, 2, 1, 3]);
        lent.versions[12..16].copy_from_slice(&[1, 2, 1, 3]);
        lent.walk_numbers[6..12].copy_from_slice(&[1, 2, 1, 3, 1, 1]);
        lent.walk_nodes[30..32].copy_from_slice(&[0, 2]);
        lent.walk_indices[30..32].copy_from_slice(&[1, 0]);
        lent.walk_nodes[45..47].copy_from_slice(&[0, 2]);
        lent.walk_indices[45..47].copy_from_slice(&[1, 0]);
        lent
    }

    #[test]
    fn a_state_written_by_hand_is_well_formed() {
        assert_eq!(audit(&small()), Ok(1));
        assert_eq!(audit(&Lent::fresh(1)), Ok(1));
    }

    #[test]
    fn each_flaw_is_found() {
        let flawed = |damage: fn(&mut Lent)| {
            let mut lent = small();
            damage(&mut lent);
            audit(&lent).expect_err("a flaw")
        };
        assert_eq!(flawed(|s| s.counts[0] = 2), "count");
        assert_eq!(flawed(|s| s.kinds[3] = LEAF), "unreached and not free");
        assert_eq!(
            flawed(|s| s.order[0] = 0),
            "a reached node in the free order"
        );
        assert_eq!(flawed(|s| s.walk_indices[30] = 0), "index of a level");
        assert_eq!(flawed(|s| s.versions[3] = 4), "a leaf of another length");
        assert_eq!(flawed(|s| s.versions[4] = 2), "neither live nor empty");
        assert_eq!(
            flawed(|s| s.cells[5] = 1),
            "a cell from used upwards is not 0"
        );
    }
}
