//! Stands in for the crate `archery`: what rpds 1.2.1's `vector` module asks of it and no more,
//! and one pointer kind of our own, `CountingK`.

mod counting;

pub use counting::CountingK;

use std::borrow::Borrow;
use std::fmt;
use std::ops::Deref;
use std::rc::Rc;
use std::sync::Arc;

pub trait SharedPointerKind {
    type Pointer<T>: Clone;

    fn new<T>(value: T) -> Self::Pointer<T>;
    fn get<T>(pointer: &Self::Pointer<T>) -> &T;
    /// Copies the value first exactly if another pointer shares it.
    fn make_mut<T: Clone>(pointer: &mut Self::Pointer<T>) -> &mut T;
}

pub struct SharedPointer<T, P: SharedPointerKind>(P::Pointer<T>);

impl<T, P: SharedPointerKind> SharedPointer<T, P> {
    pub fn new(value: T) -> Self {
        SharedPointer(P::new(value))
    }
}

impl<T: Clone, P: SharedPointerKind> SharedPointer<T, P> {
    pub fn make_mut(this: &mut Self) -> &mut T {
        P::make_mut(&mut this.0)
    }
}

impl<T, P: SharedPointerKind> Clone for SharedPointer<T, P> {
    fn clone(&self) -> Self {
        SharedPointer(self.0.clone())
    }
}

impl<T, P: SharedPointerKind> Deref for SharedPointer<T, P> {
    type Target = T;

    fn deref(&self) -> &T {
        P::get(&self.0)
    }
}

impl<T, P: SharedPointerKind> AsRef<T> for SharedPointer<T, P> {
    fn as_ref(&self) -> &T {
        self
    }
}

impl<T, P: SharedPointerKind> Borrow<T> for SharedPointer<T, P> {
    fn borrow(&self) -> &T {
        self
    }
}

impl<T: fmt::Debug, P: SharedPointerKind> fmt::Debug for SharedPointer<T, P> {
    fn fmt(&self, formatter: &mut fmt::Formatter<'_>) -> fmt::Result {
        self.deref().fmt(formatter)
    }
}

macro_rules! pointer_kind_of_std {
    ($kind:ident, $pointer:ident) => {
        #[derive(Debug)]
        pub struct $kind;

        impl SharedPointerKind for $kind {
            type Pointer<T> = $pointer<T>;

            fn new<T>(value: T) -> $pointer<T> {
                $pointer::new(value)
            }

            fn get<T>(pointer: &$pointer<T>) -> &T {
                pointer
            }

            fn make_mut<T: Clone>(pointer: &mut $pointer<T>) -> &mut T {
                $pointer::make_mut(pointer)
            }
        }
    };
}

pointer_kind_of_std!(RcK, Rc);
pointer_kind_of_std!(ArcTK, Arc);
