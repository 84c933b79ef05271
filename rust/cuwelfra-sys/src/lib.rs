//! The exported calls of the static library, and a safe function for each.
//!
//! A slice goes over as a pointer and a length. The answers are handed on as they come.

#[macro_use]
mod lend;

pub mod abi;
pub mod ffi;

mod clocks;
mod codec;
mod desk;
mod merge;
mod messages;
mod peers;
mod rows;
mod store;

pub use clocks::*;
pub use codec::*;
pub use desk::*;
pub use merge::*;
pub use messages::*;
pub use peers::*;
pub use rows::*;
pub use store::*;

/// A refusal as numbers. `number` 0: not refused; else document 01's number and its values.
#[repr(C)]
#[derive(Clone, Copy, Debug, Default, PartialEq, Eq, Hash)]
#[must_use]
pub struct Told {
    /// Document 01's number of the refusal.
    pub number: u64,
    /// The first value that it carries, else 0.
    pub first: u64,
    /// The second value that it carries, else 0.
    pub second: u64,
}
