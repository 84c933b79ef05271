//! The Rust original, compiled from its unchanged source. `assembled/lib.rs` lists its modules.
//!
//! Without the source this crate is empty and `PRESENT` is false.

extern crate alloc;

/// Whether the original's source was there when this was built.
pub const PRESENT: bool = cfg!(oracle_present);

#[cfg(oracle_present)]
include!(concat!(env!("OUT_DIR"), "/original/lib.rs"));
