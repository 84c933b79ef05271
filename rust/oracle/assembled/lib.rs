// The modules of the original that the port covers, what they need, and the replica above them. sim is left out.
pub mod clock;
pub mod codec;
pub mod engine;
pub mod error;
pub mod gc;
pub mod log;
pub mod merge;
pub mod peer;
pub mod stubs;
pub mod sync;
pub mod transport;

pub mod builder;
pub mod open;
