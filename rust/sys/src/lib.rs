//! Cavzemil's C functions, and the archive `libcavzemil.a` that has them.
//!
//! [`ffi`] declares them, and [`calls`] lends them slices; both answer C's numbers. The crate `cavzemil` has Rust's
//! types and refusals for the same calls, hands both modules on, and is what a program should use. Its tests use
//! this one.

#![warn(missing_docs, clippy::must_use_candidate)]

pub mod calls;
pub mod ffi;
mod window;
