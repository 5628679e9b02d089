//! An open walk: a list held by it, and the original's double-ended iterator over that list.

use archery::CountingK;
use original::vector::{Iter, Vector};
use std::rc::Rc;

pub type List = Vector<u32, CountingK>;

#[derive(Clone, Copy)]
pub enum End {
    Front,
    Back,
}

/// The iterator stands first, so that it is dropped before the list that it borrows.
pub struct Walk {
    iterator: Iter<'static, u32, CountingK>,
    list: Rc<List>,
}

impl Walk {
    pub fn on(list: &List) -> Walk {
        let list = Rc::new(list.clone());
        // SAFETY: the list stays where it is, unchanged, until the iterator is dropped, which never leaves the walk
        let held: &'static List = unsafe { &*Rc::as_ptr(&list) };
        Walk {
            iterator: held.iter(),
            list,
        }
    }

    pub fn list(&self) -> &List {
        &self.list
    }

    /// None once each element was taken, for ever.
    pub fn step(&mut self, end: End) -> Option<u32> {
        let element = match end {
            End::Front => self.iterator.next(),
            End::Back => self.iterator.next_back(),
        };
        element.copied()
    }
}
