//! The exported calls of the crate `host`. What is unsafe about them stands here.

use crate::{Lent, Version, VERSION_NUMBERS};

/// The number given back, and how many frames ran.
#[repr(C)]
#[derive(Clone, Copy, Debug, PartialEq, Eq)]
pub struct Report {
    pub number: u32,
    pub frames: usize,
}

// A slice is passed as its first element's address and its length.
#[rustfmt::skip]
extern "C" {
    fn jumperloft1_form(
        kinds: *mut u8, kinds_len: usize, used: *mut u8, used_len: usize, counts: *mut u32, counts_len: usize,
        cells: *const u32, cells_len: usize, order: *mut u32, order_len: usize, versions: *mut Version, versions_len: usize,
        walk_numbers: *mut u32, walk_numbers_len: usize, walk_nodes: *mut u32, walk_nodes_len: usize,
        walk_indices: *mut i32, walk_indices_len: usize,
    ) -> Report;
    fn jumperloft1_batch(
        kinds: *mut u8, kinds_len: usize, used: *mut u8, used_len: usize, counts: *mut u32, counts_len: usize,
        cells: *mut u32, cells_len: usize, order: *mut u32, order_len: usize, versions: *mut Version, versions_len: usize,
        walk_numbers: *mut u32, walk_numbers_len: usize, walk_nodes: *mut u32, walk_nodes_len: usize,
        walk_indices: *mut i32, walk_indices_len: usize,
        requests: *const u8, requests_len: usize, room: *mut u8, room_len: usize,
    ) -> Report;
}

pub fn form(s: &mut Lent) -> Report {
    // SAFETY: nine distinct slices, the versions' numbers as records of four; the call requires nothing of their lengths and contents.
    unsafe {
        jumperloft1_form(
            s.kinds.as_mut_ptr(),
            s.kinds.len(),
            s.used.as_mut_ptr(),
            s.used.len(),
            s.counts.as_mut_ptr(),
            s.counts.len(),
            s.cells.as_ptr(),
            s.cells.len(),
            s.order.as_mut_ptr(),
            s.order.len(),
            s.versions.as_mut_ptr().cast(),
            s.versions.len() / VERSION_NUMBERS,
            s.walk_numbers.as_mut_ptr(),
            s.walk_numbers.len(),
            s.walk_nodes.as_mut_ptr(),
            s.walk_nodes.len(),
            s.walk_indices.as_mut_ptr(),
            s.walk_indices.len(),
        )
    }
}

pub fn batch(s: &mut Lent, requests: &[u8], room: &mut [u8]) -> Report {
    // SAFETY: eleven distinct slices, the versions' numbers as records of four; the call requires nothing of their lengths and contents.
    unsafe {
        jumperloft1_batch(
            s.kinds.as_mut_ptr(),
            s.kinds.len(),
            s.used.as_mut_ptr(),
            s.used.len(),
            s.counts.as_mut_ptr(),
            s.counts.len(),
            s.cells.as_mut_ptr(),
            s.cells.len(),
            s.order.as_mut_ptr(),
            s.order.len(),
            s.versions.as_mut_ptr().cast(),
            s.versions.len() / VERSION_NUMBERS,
            s.walk_numbers.as_mut_ptr(),
            s.walk_numbers.len(),
            s.walk_nodes.as_mut_ptr(),
            s.walk_nodes.len(),
            s.walk_indices.as_mut_ptr(),
            s.walk_indices.len(),
            requests.as_ptr(),
            requests.len(),
            room.as_mut_ptr(),
            room.len(),
        )
    }
}
