//! A persistent vector over nodes that a host lends, shared by up to eight parties, none of which can hurt another.
//!
//! The work is done by a library every function of which is proved to meet its contract; this crate makes its calls safe and typed
//! for Rust. What each call answers, refuses and costs is decided by document 01 of the project.
//!
//! ```
//! use jumperloft::{DEFAULT_BITS, Party, Refusal, Slot, State, Walk};
//!
//! let mut state = State::new(256)?;
//! let mut plug_in = state.party(Party::new(1)?);
//! let ([empty, one, two, ..], [walk, _]) = (Slot::ALL, Walk::ALL);
//!
//! let answers = plug_in
//!     .batch()
//!     .new_vector(empty, DEFAULT_BITS)
//!     .push_back(empty, one, 7)
//!     .push_back(one, two, 9)
//!     .run()?;
//!
//! assert_eq!(answers[2].result()?.fresh, 1);
//! assert_eq!(plug_in.len(one)?, 1);
//! assert_eq!(plug_in.values(two, walk)?.rev().collect::<Vec<u32>>(), [9, 7]);
//! assert_eq!(plug_in.get(two, 2), Err(Refusal::NothingThere));
//! # Ok::<(), Refusal>(())
//! ```
//!
//! # Who holds what
//!
//! [`State`] owns its memory. [`StateRef`] is a state in [`Memory`] that someone else lends, maybe by a pointer from C
//! ([`LentState`]). Both give a [`PartyHandle`], which can speak for one party alone and so may be lent to a plug-in, and a
//! [`Host`], which may also hand versions over and count free nodes. Who holds the state itself can speak for any party: frames
//! that a plug-in wrote are run by its handle ([`PartyHandle::run_into`], [`PartyBatch`]), whatever party they name.
//!
//! # What a call costs
//!
//! Each call audits the whole state first, so it takes time by the number of nodes: put many frames in one. A [`Batch`] and a
//! [`PartyBatch`] audit once for all of their frames, and [`Values`] takes elements many at a time. A call needs [`STACK_SIZE`]
//! bytes of stack. A refused call has changed nothing.

#![deny(unsafe_op_in_unsafe_fn, missing_docs, unsafe_code)]

mod answer;
mod batch;
#[allow(unsafe_code)]
mod ffi;
mod frame;
mod host;
#[allow(unsafe_code)]
mod lent;
mod memory;
mod numbers;
mod operation;
mod owned;
mod party;
mod party_batch;
mod refusal;
mod state;
mod values;
mod walks;

pub use answer::{Answer, Edited, Served};
pub use batch::{Batch, Frames};
pub use frame::Frame;
pub use host::Host;
pub use lent::LentState;
pub use memory::{Memory, Sizes, Version};
pub use numbers::{Party, Slot, Walk};
pub use operation::Operation;
pub use owned::State;
pub use party::PartyHandle;
pub use party_batch::PartyBatch;
pub use refusal::{NoRefusal, Refusal};
pub use state::StateRef;
pub use values::Values;

/// The bits of a vector whose maker doesn't care: nodes of 32 cells.
pub const DEFAULT_BITS: u32 = 5;

/// The greatest bits of a vector; the least are 1.
pub const MOST_BITS: u32 = 5;

/// The greatest length of a vector.
pub const MOST_ELEMENTS: usize = 32_768;

/// The bytes of stack to be left for a call, at any number of nodes.
pub const STACK_SIZE: usize = 1_048_576;
