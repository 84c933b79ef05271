//! Programs in C, C++ and Rust, compiled and linked with the static library, and run.

mod abi;
mod building;
mod example;
mod outside;
