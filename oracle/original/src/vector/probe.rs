//! Reads the original's private functions and nodes; changes nothing.

use super::{vector_utils, Node, Vector};
use archery::SharedPointerKind;
use std::collections::HashSet;

pub fn degree(bits: u8) -> usize {
    vector_utils::degree(bits)
}

pub fn bucket(bits: u8, index: usize, height: usize) -> usize {
    vector_utils::bucket(bits, index, height)
}

pub fn bits<T, P: SharedPointerKind>(vector: &Vector<T, P>) -> u8 {
    vector.bits
}

pub fn height<T, P: SharedPointerKind>(vector: &Vector<T, P>) -> usize {
    vector.height()
}

pub fn root_max_capacity<T, P: SharedPointerKind>(vector: &Vector<T, P>) -> usize {
    vector.root_max_capacity()
}

pub fn is_root_full<T, P: SharedPointerKind>(vector: &Vector<T, P>) -> bool {
    vector.is_root_full()
}

/// What a vector's nodes look like; level 0 is the leaves.
pub struct Shape {
    degree: usize,
    /// The used numbers of each level's nodes, from left to right.
    pub used: Vec<Vec<usize>>,
    /// Whether leaves stand at level 0 and branches above it.
    pub kinds_fit_levels: bool,
    addresses: HashSet<usize>,
}

impl Shape {
    /// Walks the whole vector.
    pub fn of<T, P: SharedPointerKind>(vector: &Vector<T, P>) -> Shape {
        let height = vector.height();
        let mut shape = Shape {
            degree: vector_utils::degree(vector.bits),
            used: vec![Vec::new(); height + 1],
            kinds_fit_levels: true,
            addresses: HashSet::new(),
        };
        shape.visit(&vector.root, height);
        shape
    }

    fn visit<T, P: SharedPointerKind>(&mut self, node: &Node<T, P>, level: usize) {
        self.used[level].push(node.used());
        self.addresses.insert(std::ptr::from_ref(node) as usize);

        match node {
            Node::Leaf(_) => self.kinds_fit_levels &= level == 0,
            Node::Branch(_) if level == 0 => self.kinds_fit_levels = false,
            Node::Branch(children) => {
                for child in children {
                    self.visit(child, level - 1);
                }
            }
        }
    }

    pub fn distinct_nodes(&self) -> usize {
        self.addresses.len()
    }

    /// Where the nodes are, so that those of several vectors can be told apart.
    pub fn into_addresses(self) -> HashSet<usize> {
        self.addresses
    }

    pub fn is_packed_to_the_left(&self) -> bool {
        self.used.iter().all(|level| match level.split_last() {
            Some((last, others)) => {
                *last <= self.degree && others.iter().all(|used| *used == self.degree)
            }
            None => false,
        })
    }

    pub fn has_empty_node_below_root(&self) -> bool {
        let below_root = &self.used[..self.used.len() - 1];
        below_root.iter().flatten().any(|used| *used == 0)
    }

    pub fn has_branch_root_of_one_child(&self) -> bool {
        let height = self.used.len() - 1;
        height > 0 && self.used[height][0] < 2
    }
}
