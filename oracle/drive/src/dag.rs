//! Lists whose equal parts are one node: few nodes hold any length, also one beyond the limit.

use formulas::{degree, height};
use lent::{Lent, Version, NODE_CELLS};
use std::collections::HashMap;

const FREE_NODES: usize = 3;

struct Builder {
    /// Kind, used, count and cells of each node.
    nodes: Vec<(u8, u8, u32, Vec<u32>)>,
    /// The node of a height over so many elements.
    known: HashMap<(u32, u32), u32>,
    bits: u32,
}

impl Builder {
    /// Links the node of a height over so many elements, and makes it if there is none.
    fn link(&mut self, height: u32, size: u32) -> u32 {
        let node = match self.known.get(&(height, size)) {
            Some(node) => *node,
            None => self.make(height, size),
        };
        self.nodes[node as usize].2 += 1;
        node
    }

    fn make(&mut self, height: u32, size: u32) -> u32 {
        let new = if height == 0 {
            let values = (0..size).map(|index| index + 100);
            (1, size as u8, 0, values.collect())
        } else {
            let each = degree(self.bits).pow(height);
            let sizes = (0..size.div_ceil(each)).map(|child| each.min(size - child * each));
            let children: Vec<u32> = sizes.map(|size| self.link(height - 1, size)).collect();
            (2, children.len() as u8, 0, children)
        };
        let node = self.nodes.len() as u32;
        self.nodes.push(new);
        self.known.insert((height, size), node);
        node
    }
}

/// One list in one slot, with a few free nodes. Well-formed exactly if the length is legal.
pub fn shared_list(bits: u32, length: u32) -> Lent {
    let mut builder = Builder {
        nodes: Vec::new(),
        known: HashMap::new(),
        bits,
    };
    let root = builder.link(height(bits, length), length);
    let nodes = builder.nodes.len();
    let mut lent = Lent::fresh(nodes + FREE_NODES);
    for (n, (kind, used, count, cells)) in builder.nodes.into_iter().enumerate() {
        (lent.kinds[n], lent.used[n], lent.counts[n]) = (kind, used, count);
        lent.cells[NODE_CELLS * n..][..cells.len()].copy_from_slice(&cells);
    }
    for free in 0..FREE_NODES {
        lent.order[free] = (nodes + free) as u32;
    }
    let version = Version {
        live: 1,
        root,
        bits,
        length,
    };
    lent.set_version(17, version);
    lent
}
