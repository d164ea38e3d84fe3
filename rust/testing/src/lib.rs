//! What the rules promise of any implementation, and what is drawn to put it to the test.
//!
//! A promise is a public function of its [`Subject`] without parameters, which fails where the promise is
//! broken. [`promises!`] makes a test of each, so that the plain and the compiled library stand the same tests.

pub mod bills;
pub mod cellular;
pub mod draw;
pub mod false_records;
pub mod finished_windows;
pub mod making;
pub mod marks;
pub mod motifs;
pub mod moved;
pub mod phases;
mod promises;
mod subject;
pub mod texts;

pub use subject::{Plain, Subject};

/// The number of Demichel's separation (rule 14.3).
pub const DEMICHEL: u32 = 0;

/// The number of Kueppers's separation.
pub const KUEPPERS: u32 = 1;
