//! What the port is lent and answers: areas, rows and batches by writers and readers of our own, and calls of the port.

pub mod area;
pub mod batches;
pub mod desk;
pub mod lending;
pub mod messages;
pub mod own;
pub mod rows;
pub mod store;
pub mod wrapped;
