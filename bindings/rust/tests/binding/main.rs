//! The crate's tests, in one program.

mod against_model;
mod boundary;
mod conversions;
mod figures;
mod frame_makers;
mod hidden_names;
mod lent_state;
mod limits;
mod number_table;
mod party_batches;
mod readme;
mod slices;
mod values;

// what they share
mod filled;
mod frames;
mod guarded;
mod model;
mod random;
mod snapshot;
