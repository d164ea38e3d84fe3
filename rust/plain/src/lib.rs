//! A plain second implementation of Cavzemil's rules.
//!
//! Each module names the rules of `docs/RULES.md` that it follows, one by one and without any haste: a reader
//! compares the two side by side. It shares no line with the proved library, which is compared with it and
//! whose speed is measured against it.
//!
//! Every call of the C interface is here under its own name, in Rust's types but with the same numbers:
//! an answer holds its refusal, 0 where there is none, and a separation is handed over as a number.

mod bill;
mod brick;
mod cellular;
mod counts_program;
mod moved;
mod plates;
mod predict;
mod quantise;
pub mod random;
mod render;
mod screen;
mod separation;
mod stored;

pub use bill::{charge_of, Charge};
pub use brick::{brick_of, fill_brick, Brick};
pub use cellular::{colorant_order, colorant_sets, predict_cellular, set_weights, Cellular};
pub use counts_program::counts_program;
pub use moved::moved;
pub use plates::{pack, unpack};
pub use predict::{predict, Prediction};
pub use quantise::{cells_of_subscreen, counts_of, running_counts, subscreen_of, Counts};
pub use render::{cell_at, render, render_brick, Cell, Rendering, Window};
pub use screen::{phase, phase_at, screen_refusal, Place, Screen};
pub use separation::{scale, weights, Inks, Separation};
pub use stored::{make_screen, replace_cells, replace_offset, replace_subscreens, Made};

/// The number of the rules that this implementation is written from (rule 14.1).
pub const RULES: u32 = 6;

/// The refusal of a separation that is neither 0 (Demichel) nor 1 (Kueppers), tested before all else
/// (rule 14.3).
pub const NO_SUCH_SEPARATION: u32 = 100;
