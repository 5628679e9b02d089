use super::*;

#[test]
fn heights_of_document_01() {
    let figures = [
        (5, 0, 0),
        (5, 1, 0),
        (5, 32, 0),
        (5, 33, 1),
        (5, 1024, 1),
        (5, 1025, 2),
        (5, 32_768, 2),
        (1, 2, 0),
        (1, 3, 1),
        (1, 5, 2),
        (1, 32_768, 14),
    ];
    for (bits, length, expected) in figures {
        assert_eq!(
            height(bits, length),
            expected,
            "bits {bits}, length {length}"
        );
    }
}

#[test]
fn drops_of_document_01() {
    for (length, expected) in [(33, 0), (34, 2), (65, 1), (1025, 0), (1, 1)] {
        assert_eq!(drop_fresh(5, length), expected, "length {length}");
    }
}

#[test]
fn limits_of_document_01() {
    assert_eq!(LENGTH_LIMIT, 32_768);
    assert!(!BITS.contains(&0) && BITS.contains(&1));
    assert!(BITS.contains(&5) && !BITS.contains(&6));
}

#[test]
fn the_free_nodes_of_document_01s_example() {
    assert_eq!(256 - NEW_FRESH - push_fresh(5, 0), 0xFE);
}

#[test]
fn the_root_is_grown_when_32_elements_fill_it() {
    assert!(!is_root_full(5, 31) && is_root_full(5, 32) && !is_root_full(5, 33));
    assert_eq!(
        (push_fresh(5, 31), push_fresh(5, 32), push_fresh(5, 33)),
        (1, 2, 2)
    );
}

#[test]
fn a_drop_is_charged_the_whole_path() {
    assert_eq!((drop_charge(5, 33), drop_charge(5, 65)), (2, 2));
    assert_eq!((drop_charge(5, 1), drop_charge(5, 1025)), (1, 3));
}

#[test]
fn nodes_of_a_length() {
    for (length, expected) in [(0, 1), (1, 1), (32, 1), (33, 3), (1024, 33), (1025, 36)] {
        assert_eq!(nodes(5, length), expected, "length {length}");
    }
    assert_eq!(nodes(1, 32_768), 32_767);
}
