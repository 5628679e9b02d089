use archery::{CountingK, SharedPointer};

mod vector {
    #[derive(Clone)]
    pub struct Node<T>(pub T);
}

type Pointer<T> = SharedPointer<T, CountingK>;

fn counts() -> (usize, usize) {
    (CountingK::allocated(), CountingK::live())
}

#[test]
fn make_mut_copies_exactly_when_shared() {
    let mut first: Pointer<vector::Node<u32>> = SharedPointer::new(vector::Node(7));
    assert_eq!(counts(), (1, 1));

    SharedPointer::make_mut(&mut first).0 = 8;
    assert_eq!(counts(), (1, 1));

    let second = first.clone();
    assert_eq!(counts(), (1, 1));

    SharedPointer::make_mut(&mut first).0 = 9;
    assert_eq!(counts(), (2, 2));
    assert_eq!((first.0, second.0), (9, 8));

    drop(second);
    SharedPointer::make_mut(&mut first).0 = 10;
    assert_eq!(counts(), (2, 1));
}

#[test]
fn elements_are_not_counted() {
    let element: Pointer<u32> = SharedPointer::new(7);
    assert_eq!((*element, counts()), (7, (0, 0)));
}
