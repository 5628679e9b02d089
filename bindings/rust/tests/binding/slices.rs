//! What each lent slice holds, so that none of them can be taken for another.

use jumperloft::{Memory, Party, Slot, State, StateRef, Version, Walk};

use crate::guarded::{GuardedState, Side};
use crate::snapshot::Snapshot;

#[test]
fn a_fresh_state_has_its_free_order_and_zeros_and_its_cells_as_they_were() {
    let sevens = Snapshot::of_sevens(4);
    let mut lent = GuardedState::of(&sevens, Side::End);
    StateRef::form(lent.memory()).unwrap();
    let fresh = Snapshot {
        kinds: vec![0; 4],
        used: vec![0; 4],
        counts: vec![0; 4],
        cells: sevens.cells,
        order: vec![3, 2, 1, 0],
        versions: vec![Version::default(); Memory::VERSIONS],
        walk_numbers: vec![0; Memory::WALK_NUMBERS],
        walk_nodes: vec![0; Memory::WALK_LEVELS],
        walk_indices: vec![0; Memory::WALK_LEVELS],
    };
    assert_eq!(Snapshot::of(lent.memory()), fresh);
}

#[test]
fn a_state_of_its_own_memory_begins_with_zeros() {
    let mut state = State::new(4).unwrap();
    let held = Snapshot::of(state.lend().into_memory());
    assert_eq!(held.cells, vec![0; 4 * Memory::NODE_CELLS]);
}

/// Zeros but for rows that begin with these numbers.
fn rows<T: Copy + Default>(total: usize, width: usize, rows: &[(usize, &[T])]) -> Vec<T> {
    let mut all = vec![T::default(); total];
    for (row, numbers) in rows {
        all[row * width..][..numbers.len()].copy_from_slice(numbers);
    }
    all
}

#[test]
fn lists_and_a_walk_stand_where_they_should() {
    let mut state = State::new(8).unwrap();
    let ([empty, one, two, three, .., last], [_, walk]) = (Slot::ALL, Walk::ALL);
    let answers = state
        .party(Party::ALL[3])
        .batch()
        .new_vector(empty, 1)
        .push_back(empty, one, 10)
        .push_back(one, two, 20)
        .push_back(two, three, 30)
        .clone_slot(three, last)
        .open_walk(three, walk)
        .next(walk)
        .next(walk)
        .next_back(walk)
        .release(empty)
        .run()
        .unwrap();
    assert!(answers.iter().all(|answer| answer.result().is_ok()));

    let version = |root, length| Version {
        live: 1,
        root,
        bits: 1,
        length,
    };
    let mut versions = vec![Version::default(); Memory::VERSIONS];
    versions[25..28].copy_from_slice(&[version(1, 1), version(2, 2), version(4, 3)]);
    versions[31] = version(4, 3);
    let stacks = [(14, [3, 4].as_slice()), (15, &[2, 4])];
    let held = Snapshot {
        kinds: vec![0, 1, 1, 1, 2, 0, 0, 0],
        used: vec![0, 1, 2, 1, 2, 0, 0, 0],
        counts: vec![0, 1, 2, 1, 3, 0, 0, 0],
        cells: rows(
            8 * Memory::NODE_CELLS,
            Memory::NODE_CELLS,
            &[(1, &[10]), (2, &[10, 20]), (3, &[30]), (4, &[2, 3])],
        ),
        order: vec![7, 6, 5, 0, 3, 2, 1, 0],
        versions,
        walk_numbers: rows(Memory::WALK_NUMBERS, 6, &[(7, &[1, 4, 1, 3, 2, 1])]),
        walk_nodes: rows(Memory::WALK_LEVELS, 15, &stacks),
        walk_indices: rows(Memory::WALK_LEVELS, 15, &[(14, &[0, 1]), (15, &[1])]),
    };
    assert_eq!(Snapshot::of(state.lend().into_memory()), held);
}
