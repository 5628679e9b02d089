//! A state as C sees it.

use std::fmt;
use std::marker::PhantomData;
use std::slice::from_raw_parts_mut;

use crate::{Memory, Refusal, Sizes, StateRef, Version};

/// The C header's `jumperloft1_state`: what a host lends to a plug-in in any language.
///
/// A host in Rust makes one of a state and passes its address; the state is borrowed as long as it is there. A plug-in in Rust
/// takes the address that it was passed to [`StateRef::at`].
///
/// ```
/// use jumperloft::{LentState, Party, Refusal, Slot, State, StateRef};
///
/// /// A plug-in's exported function, such as one in C would be.
/// unsafe extern "C" fn plugin_edit(state: *const LentState<'_>, party: u8) -> u32 {
///     // SAFETY: the caller lends the state for this call.
///     let edited = unsafe { StateRef::at(state) }
///         .and_then(|mut state| state.party(Party::new(party)?).new_vector(Slot::ALL[0], 5));
///     edited.map_or_else(u32::from, |_| 0)
/// }
///
/// let mut state = State::new(64)?;
/// let lent = LentState::from(state.lend());
/// // SAFETY: the plug-in gets a state that nothing else uses meanwhile.
/// assert_eq!(unsafe { plugin_edit(&lent, 1) }, 0);
/// assert_eq!(state.host().free_nodes()?, 63);
/// # Ok::<(), Refusal>(())
/// ```
#[repr(C)]
pub struct LentState<'a> {
    kinds: *mut u8,
    used: *mut u8,
    counts: *mut u32,
    cells: *mut u32,
    order: *mut u32,
    versions: *mut Version,
    walk_numbers: *mut u32,
    walk_nodes: *mut u32,
    walk_indices: *mut i32,
    sizes: Sizes,
    borrowed: PhantomData<StateRef<'a>>,
}

impl<'a> From<StateRef<'a>> for LentState<'a> {
    fn from(state: StateRef<'a>) -> LentState<'a> {
        let memory = state.into_memory();
        LentState {
            sizes: Sizes {
                nodes: memory.kinds.len(),
                used: memory.used.len(),
                cells: memory.cells.len(),
                counts: memory.counts.len(),
                order: memory.order.len(),
                versions: memory.versions.len(),
                walk_numbers: memory.walk_numbers.len(),
                walk_nodes: memory.walk_nodes.len(),
                walk_indices: memory.walk_indices.len(),
            },
            kinds: memory.kinds.as_mut_ptr(),
            used: memory.used.as_mut_ptr(),
            counts: memory.counts.as_mut_ptr(),
            cells: memory.cells.as_mut_ptr(),
            order: memory.order.as_mut_ptr(),
            versions: memory.versions.as_mut_ptr(),
            walk_numbers: memory.walk_numbers.as_mut_ptr(),
            walk_nodes: memory.walk_nodes.as_mut_ptr(),
            walk_indices: memory.walk_indices.as_mut_ptr(),
            borrowed: PhantomData,
        }
    }
}

impl<'a> StateRef<'a> {
    /// The state that a host lends by the address of a `jumperloft1_state`.
    ///
    /// Addresses that are null or not aligned, and sizes of no state, are refused with [`Refusal::IllFormed`]. What the slices hold
    /// is not looked at here, as each call audits it.
    ///
    /// # Safety
    ///
    /// `lent` is null, or the address of a `jumperloft1_state` that a host has filled; and as long as `'a` lasts
    ///
    /// - each of its pointers leads to as many elements as its size says, all of which may be read and written;
    /// - no two of these slices overlap;
    /// - nobody else reads or writes them, not even through another state made of the same address.
    ///
    /// `'a` is the caller's to choose. In a function that a host calls, it lasts until that function returns, and no longer.
    pub unsafe fn at(lent: *const LentState<'a>) -> Result<StateRef<'a>, Refusal> {
        if lent.is_null() || !lent.is_aligned() {
            return Err(Refusal::IllFormed);
        }
        // SAFETY: the caller answers for what is there.
        let lent = unsafe { &*lent };
        let sizes = lent.sizes;
        if Sizes::of(sizes.nodes) != Some(sizes) {
            return Err(Refusal::IllFormed);
        }
        // SAFETY: the caller answers for each slice; its size is that of a state.
        let memory = unsafe {
            Memory {
                kinds: slice_at(lent.kinds, sizes.nodes)?,
                used: slice_at(lent.used, sizes.used)?,
                counts: slice_at(lent.counts, sizes.counts)?,
                cells: slice_at(lent.cells, sizes.cells)?,
                order: slice_at(lent.order, sizes.order)?,
                versions: slice_at(lent.versions, sizes.versions)?,
                walk_numbers: slice_at(lent.walk_numbers, sizes.walk_numbers)?,
                walk_nodes: slice_at(lent.walk_nodes, sizes.walk_nodes)?,
                walk_indices: slice_at(lent.walk_indices, sizes.walk_indices)?,
            }
        };
        Ok(StateRef::of(memory))
    }
}

/// # Safety
///
/// Where `first` is aligned and not null, so many elements are there, lent to nobody else as long as `'a` lasts.
unsafe fn slice_at<'a, T>(first: *mut T, count: usize) -> Result<&'a mut [T], Refusal> {
    if first.is_null() || !first.is_aligned() {
        return Err(Refusal::IllFormed);
    }
    // SAFETY: it is aligned and not null, and the caller answers for the rest.
    Ok(unsafe { from_raw_parts_mut(first, count) })
}

impl fmt::Debug for LentState<'_> {
    fn fmt(&self, f: &mut fmt::Formatter<'_>) -> fmt::Result {
        f.debug_struct("LentState")
            .field("nodes", &self.sizes.nodes)
            .finish_non_exhaustive()
    }
}
