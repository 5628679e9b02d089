use super::*;
use crate::count::Count;
use crate::lines;

#[test]
fn the_seed_decides_everything() {
    assert_eq!(make(7, 500), make(7, 500));
    assert_ne!(make(7, 500), make(8, 500));
}

#[test]
fn as_many_lines_are_made_as_asked() {
    for count in [0, 1, 2, 500] {
        assert_eq!(lines::lines(&make(2, count)).count(), count);
    }
}

#[test]
fn a_made_session_has_every_operation_and_number() {
    for seed in 10..14 {
        let count = Count::of(&make(seed, 6_000));
        assert!(count.has_everything(), "seed {seed}:\n{count}");
    }
}
