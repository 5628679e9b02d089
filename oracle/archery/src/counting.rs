//! A pointer kind that counts; the crate `archery` has none such.

use crate::SharedPointerKind;
use std::any::type_name;
use std::cell::Cell;
use std::rc::Rc;

/// `RcK` that counts, on each thread apart, the nodes of vectors that use it.
#[derive(Debug)]
pub struct CountingK;

thread_local! {
    static ALLOCATED: Cell<usize> = const { Cell::new(0) };
    static LIVE: Cell<usize> = const { Cell::new(0) };
}

impl CountingK {
    /// Nodes allocated so far on this thread.
    pub fn allocated() -> usize {
        ALLOCATED.get()
    }

    /// Nodes allocated on this thread and not yet freed.
    pub fn live() -> usize {
        LIVE.get()
    }
}

impl SharedPointerKind for CountingK {
    type Pointer<T> = Rc<Counted<T>>;

    fn new<T>(value: T) -> Rc<Counted<T>> {
        Rc::new(Counted::new(value))
    }

    fn get<T>(pointer: &Rc<Counted<T>>) -> &T {
        &pointer.0
    }

    fn make_mut<T: Clone>(pointer: &mut Rc<Counted<T>>) -> &mut T {
        &mut Rc::make_mut(pointer).0
    }
}

pub struct Counted<T>(T);

impl<T> Counted<T> {
    // Elements stand behind shared pointers too, so a node is told from an element by its type's name.
    fn is_node() -> bool {
        type_name::<T>().contains("::vector::Node<")
    }

    fn new(value: T) -> Self {
        if Self::is_node() {
            ALLOCATED.set(ALLOCATED.get() + 1);
            LIVE.set(LIVE.get() + 1);
        }
        Counted(value)
    }
}

impl<T: Clone> Clone for Counted<T> {
    fn clone(&self) -> Self {
        Counted::new(self.0.clone())
    }
}

impl<T> Drop for Counted<T> {
    fn drop(&mut self) {
        if Self::is_node() {
            LIVE.set(LIVE.get() - 1);
        }
    }
}
