//! Holds what comments and pages say against the texts that they speak of: quotations, names and counts of lines. Tries
//! the scripts at the repository's top, each in a tree of its own.

pub mod definitions;
pub mod files;
pub mod names;
pub mod quotations;
pub mod tree;
