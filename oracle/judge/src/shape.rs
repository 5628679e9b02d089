//! Holds the nodes of a list of the original's against "Shape of a version".

use crate::measure::List;
use crate::tally::Tally;
use formulas::{height, nodes, nodes_at_level, used_at_level};
use original::vector::probe::Shape;

pub fn compare_shape(tally: &mut Tally, list: &List, length: u32) {
    let bits = tally.bits;
    let shape = Shape::of(list);

    tally.compare(
        "distinct nodes",
        shape.distinct_nodes(),
        nodes(bits, length),
    );
    tally.compare("levels", shape.used.len(), height(bits, length) + 1);
    for (level, used) in (0..).zip(&shape.used) {
        tally.compare(
            "nodes at a level",
            used.len(),
            nodes_at_level(bits, length, level),
        );
        tally.compare(
            "used at a level",
            used.iter().sum(),
            used_at_level(bits, length, level),
        );
    }
    tally.compare_truth("leaves at level 0 alone", shape.kinds_fit_levels, true);
    tally.compare_truth("packed to the left", shape.is_packed_to_the_left(), true);
    tally.compare_truth(
        "empty node below the root",
        shape.has_empty_node_below_root(),
        false,
    );
    tally.compare_truth(
        "branch root of one child",
        shape.has_branch_root_of_one_child(),
        false,
    );
}
