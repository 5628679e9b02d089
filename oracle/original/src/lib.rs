//! rpds 1.2.1's `vector` module, its text unchanged, and a `probe` that looks at its private parts.

extern crate alloc;

#[allow(clippy::all)]
pub mod vector {
    include!(concat!(env!("OUT_DIR"), "/original_vector.rs"));

    // A child module, so that it can reach what the original keeps private.
    #[warn(clippy::all)]
    pub mod probe;
}

pub use vector::Vector;
