//! The exported calls of the library.
//!
//! All are proved for all slices: they require nothing of lengths or contents, stay within the slices, end, and keep no address.

use std::arch::asm;

use crate::memory::{Memory, Sizes, Version};

/// What a call reports.
#[repr(C)]
pub(crate) struct Report {
    /// Document 01's number.
    pub(crate) number: u32,
    /// How many frames ran.
    pub(crate) frames: usize,
}

// A slice is passed as its first element's address and its length.
#[rustfmt::skip]
unsafe extern "C" {
    fn jumperloft1_sizes(nodes: usize) -> Sizes;
    fn jumperloft1_form(
        kinds: *mut u8, kinds_len: usize, used: *mut u8, used_len: usize, counts: *mut u32, counts_len: usize,
        cells: *const u32, cells_len: usize, order: *mut u32, order_len: usize,
        versions: *mut Version, versions_len: usize, walk_numbers: *mut u32, walk_numbers_len: usize,
        walk_nodes: *mut u32, walk_nodes_len: usize, walk_indices: *mut i32, walk_indices_len: usize,
    ) -> Report;
    fn jumperloft1_batch(
        kinds: *mut u8, kinds_len: usize, used: *mut u8, used_len: usize, counts: *mut u32, counts_len: usize,
        cells: *mut u32, cells_len: usize, order: *mut u32, order_len: usize,
        versions: *mut Version, versions_len: usize, walk_numbers: *mut u32, walk_numbers_len: usize,
        walk_nodes: *mut u32, walk_nodes_len: usize, walk_indices: *mut i32, walk_indices_len: usize,
        requests: *const u8, requests_len: usize, room: *mut u8, room_len: usize,
    ) -> Report;
}

/// Keeps the library's names out of what the caller is linked into, so that no other code can be taken for them.
#[inline(always)]
fn hide_names() {
    // SAFETY: directives to the assembler, and no instruction.
    unsafe {
        asm!(
            ".hidden jumperloft1_sizes",
            ".hidden jumperloft1_form",
            ".hidden jumperloft1_batch",
            options(nomem, nostack, preserves_flags)
        )
    }
}

/// A call with the nine slices first, in the order of the declarations above.
#[rustfmt::skip]
macro_rules! call_on {
    ($memory:ident, $call:ident $(, $more:expr)*) => {
        $call(
            $memory.kinds.as_mut_ptr(), $memory.kinds.len(), $memory.used.as_mut_ptr(), $memory.used.len(),
            $memory.counts.as_mut_ptr(), $memory.counts.len(), $memory.cells.as_mut_ptr(), $memory.cells.len(),
            $memory.order.as_mut_ptr(), $memory.order.len(), $memory.versions.as_mut_ptr(), $memory.versions.len(),
            $memory.walk_numbers.as_mut_ptr(), $memory.walk_numbers.len(),
            $memory.walk_nodes.as_mut_ptr(), $memory.walk_nodes.len(),
            $memory.walk_indices.as_mut_ptr(), $memory.walk_indices.len(),
            $($more),*
        )
    };
}

/// The sizes of a state of so many nodes, all 0 where there is no such state.
pub(crate) fn sizes(nodes: usize) -> Sizes {
    hide_names();
    // SAFETY: it takes a number, and any will do.
    unsafe { jumperloft1_sizes(nodes) }
}

/// Makes a fresh state, or refuses and writes nothing.
pub(crate) fn form(memory: &mut Memory<'_>) -> Report {
    hide_names();
    // SAFETY: each address and length is of one slice, which is borrowed alone for this call.
    unsafe { call_on!(memory, jumperloft1_form) }
}

/// Runs the frames and writes their answers, or refuses and writes nothing.
pub(crate) fn batch(memory: &mut Memory<'_>, requests: &[u8], room: &mut [u8]) -> Report {
    hide_names();
    let (asked, answered) = (requests.as_ptr(), room.as_mut_ptr());
    // SAFETY: each address and length is of one slice, borrowed for this call, and those to be written are borrowed alone.
    unsafe {
        call_on!(
            memory,
            jumperloft1_batch,
            asked,
            requests.len(),
            answered,
            room.len()
        )
    }
}
