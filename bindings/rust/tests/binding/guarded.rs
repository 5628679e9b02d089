//! Slices between two pages that nobody may touch: a read or write past an end kills the test.

use std::ffi::c_void;
use std::ops::{Deref, DerefMut};
use std::ptr::null_mut;
use std::slice;

use jumperloft::Memory;

use crate::snapshot::Snapshot;

const PAGE: usize = 4_096;
const PROT_NONE: i32 = 0;
const PROT_READ_WRITE: i32 = 3;
const MAP_PRIVATE_ANONYMOUS: i32 = 0x22;

unsafe extern "C" {
    fn mmap(
        at: *mut c_void,
        bytes: usize,
        may: i32,
        flags: i32,
        file: i32,
        from: i64,
    ) -> *mut c_void;
    fn mprotect(at: *mut c_void, bytes: usize, may: i32) -> i32;
    fn munmap(at: *mut c_void, bytes: usize) -> i32;
}

/// Which end of a slice lies at such a page.
#[derive(Clone, Copy, Debug)]
pub enum Side {
    Start,
    End,
}

pub struct Guarded<T> {
    mapping: *mut u8,
    mapped: usize,
    first: *mut T,
    count: usize,
}

impl<T: Copy> Guarded<T> {
    pub fn of(values: &[T], side: Side) -> Guarded<T> {
        let bytes = size_of_val(values);
        let inner = bytes.next_multiple_of(PAGE);
        let mapped = inner + 2 * PAGE;
        // SAFETY: new pages, of which the inner ones are opened; the values fit at either end of those, and are aligned there, as
        // a page and the values' size are multiples of their alignment.
        unsafe {
            let mapping = mmap(null_mut(), mapped, PROT_NONE, MAP_PRIVATE_ANONYMOUS, -1, 0);
            assert_ne!(mapping.addr(), usize::MAX, "mmap");
            let mapping: *mut u8 = mapping.cast();
            let opened = mapping.add(PAGE);
            assert_eq!(mprotect(opened.cast(), inner, PROT_READ_WRITE), 0);
            let first = match side {
                Side::Start => opened,
                Side::End => opened.add(inner - bytes),
            };
            let first: *mut T = first.cast();
            first.copy_from_nonoverlapping(values.as_ptr(), values.len());
            let count = values.len();
            Guarded {
                mapping,
                mapped,
                first,
                count,
            }
        }
    }
}

impl<T> Deref for Guarded<T> {
    type Target = [T];

    fn deref(&self) -> &[T] {
        // SAFETY: so many were put there.
        unsafe { slice::from_raw_parts(self.first, self.count) }
    }
}

impl<T> DerefMut for Guarded<T> {
    fn deref_mut(&mut self) -> &mut [T] {
        // SAFETY: so many were put there.
        unsafe { slice::from_raw_parts_mut(self.first, self.count) }
    }
}

impl<T> Drop for Guarded<T> {
    fn drop(&mut self) {
        // SAFETY: the pages are this one's alone.
        let unmapped = unsafe { munmap(self.mapping.cast(), self.mapped) };
        assert_eq!(unmapped, 0);
    }
}

/// The nine slices of a state, each between its own pages.
pub struct GuardedState {
    kinds: Guarded<u8>,
    used: Guarded<u8>,
    counts: Guarded<u32>,
    cells: Guarded<u32>,
    order: Guarded<u32>,
    versions: Guarded<jumperloft::Version>,
    walk_numbers: Guarded<u32>,
    walk_nodes: Guarded<u32>,
    walk_indices: Guarded<i32>,
}

impl GuardedState {
    pub fn of(held: &Snapshot, side: Side) -> GuardedState {
        GuardedState {
            kinds: Guarded::of(&held.kinds, side),
            used: Guarded::of(&held.used, side),
            counts: Guarded::of(&held.counts, side),
            cells: Guarded::of(&held.cells, side),
            order: Guarded::of(&held.order, side),
            versions: Guarded::of(&held.versions, side),
            walk_numbers: Guarded::of(&held.walk_numbers, side),
            walk_nodes: Guarded::of(&held.walk_nodes, side),
            walk_indices: Guarded::of(&held.walk_indices, side),
        }
    }

    pub fn memory(&mut self) -> Memory<'_> {
        Memory {
            kinds: &mut self.kinds,
            used: &mut self.used,
            counts: &mut self.counts,
            cells: &mut self.cells,
            order: &mut self.order,
            versions: &mut self.versions,
            walk_numbers: &mut self.walk_numbers,
            walk_nodes: &mut self.walk_nodes,
            walk_indices: &mut self.walk_indices,
        }
    }
}
