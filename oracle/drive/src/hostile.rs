//! Well-formed states made by hand to be slow to audit, and one with cycles.

use formulas::{degree, height, nodes_at_level, LENGTH_LIMIT};
use frames::rng::Rng;
use lent::{Lent, NODE_CELLS, SLOTS, WALKS, WALK_NUMBERS};

const LEAF: u8 = 1;
const BRANCH: u8 = 2;

struct Builder {
    lent: Lent,
    /// Nodes not yet taken, in random order.
    left: Vec<u32>,
    /// Full leaves, which branches share at random.
    leaves: Vec<u32>,
    rng: Rng,
    bits: u32,
}

/// As many lists as there are slots and walks, or as fit; the length is a power of 2. No two share a branch, so that each descends anew;
/// branches lie anywhere in the pool, and each leaf is a random one of those that all share.
pub fn scattered(nodes: usize, bits: u32, length: u32) -> (Lent, usize) {
    let mut rng = Rng::new(u64::from(bits));
    let mut left: Vec<u32> = (0..nodes as u32).collect();
    for at in (1..left.len()).rev() {
        left.swap(at, rng.below(at + 1));
    }
    let mut builder = Builder {
        lent: Lent::fresh(nodes),
        left,
        leaves: Vec::new(),
        rng,
        bits,
    };
    let height = height(bits, length);
    let branches: u32 = (1..=height).map(|h| nodes_at_level(bits, length, h)).sum();
    let lists = (SLOTS + WALKS).min((nodes - 1) / branches as usize);
    builder.leaves(nodes - lists * branches as usize);
    for list in 0..lists {
        builder.list(list, height, length);
    }
    (builder.finish(), lists)
}

impl Builder {
    fn leaves(&mut self, count: usize) {
        for _ in 0..count {
            let n = self.left.pop().expect("nodes are left");
            let used = degree(self.bits);
            self.lent.kinds[n as usize] = LEAF;
            self.lent.used[n as usize] = used as u8;
            self.lent.cells[NODE_CELLS * n as usize..][..used as usize].fill(n);
            self.leaves.push(n);
        }
    }

    fn list(&mut self, list: usize, height: u32, length: u32) {
        let root = self.tree(height, length);
        let record = [1, root, self.bits, length];
        if list < SLOTS {
            self.lent.versions[4 * list..][..4].copy_from_slice(&record);
        } else {
            let at = WALK_NUMBERS * (list - SLOTS);
            self.lent.walk_numbers[at..][..4].copy_from_slice(&record);
        }
    }

    /// A node over so many elements, linked once more.
    fn tree(&mut self, height: u32, size: u32) -> u32 {
        if height == 0 {
            let leaf = self.leaves[self.rng.below(self.leaves.len())];
            self.lent.counts[leaf as usize] += 1;
            return leaf;
        }
        let n = self.left.pop().expect("nodes are left");
        let each = degree(self.bits).pow(height);
        let used = size.div_ceil(each);
        self.lent.kinds[n as usize] = BRANCH;
        self.lent.used[n as usize] = used as u8;
        self.lent.counts[n as usize] = 1;
        for child in 0..used {
            let below = self.tree(height - 1, each.min(size - child * each));
            self.lent.cells[NODE_CELLS * n as usize + child as usize] = below;
        }
        n
    }

    /// Leaves that nothing came to link are free.
    fn finish(mut self) -> Lent {
        let lent = &mut self.lent;
        let mut free = 0;
        for n in 0..lent.nodes() {
            if lent.counts[n] == 0 {
                (lent.kinds[n], lent.used[n]) = (0, 0);
                lent.order[free] = n as u32;
                free += 1;
            }
        }
        self.lent
    }
}

/// Every node a full branch of itself.
pub fn cycles(nodes: usize) -> Lent {
    let mut lent = Lent::fresh(nodes);
    lent.kinds.fill(BRANCH);
    lent.used.fill(2);
    lent.counts.fill(2);
    for n in 0..nodes {
        lent.cells[NODE_CELLS * n..][..2].fill(n as u32);
    }
    for slot in 0..SLOTS {
        lent.versions[4 * slot..][..4].copy_from_slice(&[1, slot as u32, 1, LENGTH_LIMIT]);
    }
    lent
}
