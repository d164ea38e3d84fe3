//! Line screens for a press that lays eight opaque inks side by side.
//!
//! This crate is a safe interface over the C functions of Cavzemil's compiled library, `libcavzemil.a`. What
//! each call answers is fixed by the rules of the repository's `docs/RULES.md`, which the library is proved
//! to follow; they are cited here by number, as `rule 3.2`.
//!
//! `bash scripts/build` in the repository makes the archive. Another one is linked where the environment
//! variable `CAVZEMIL_ARCHIVE` names the folder that has it, written from the root.
//!
//! A [`Screen`] is made of five numbers. It knows the phase of every place of the sheet, tiles the sheet with
//! a [`Brick`], and renders ink values to cells, one colorant number a byte:
//!
//! ```
//! use cavzemil::{Screen, Separation, Window};
//!
//! # fn main() -> Result<(), cavzemil::Refusal> {
//! let screen = Screen::new(4, 7, 105, 2, 0)?;
//! let window = Window { x: 0, y: 0, columns: 105, rows: 1 };
//! let input = [128, 128, 0].repeat(105);
//! let mut cells = [0; 105];
//! let tallies = screen.render(Separation::Demichel, window, &input, &mut cells)?;
//! assert_eq!(tallies, [26, 26, 0, 27, 0, 0, 0, 26]);
//! # Ok(())
//! # }
//! ```
//!
//! A screen keeps the columns, rows and shift of its brick. They stay those of its a, b and N, since a screen
//! is come by only where the library admitted it: made, with a number replaced, moved, or read from a filed
//! [`Record`] (rule 17.6).
//!
//! [`pack`] turns cells into plates, eight planes of one bit a cell: a set bit in a colorant's plane means
//! that this ink prints at that pixel (rule 8.2). [`Screen::predict`] says what colour a patch will have, by
//! the colours of eight inks, and [`Screen::predict_cellular`] by those of all sets of them (rule 16.1).
//! [`charge`] says what the ink of a job costs, by the tallies of its windows (rule 15.4).
//!
//! A call that fills memory of the caller's has a name like [`pack`], and beside it stands one like
//! [`pack_to_vec`], which answers a `Vec`:
//!
//! ```
//! # use cavzemil::{Screen, Separation, Window};
//! # let screen = Screen::new(4, 7, 105, 2, 0)?;
//! let window = Window { columns: 105, rows: 1, ..Window::default() };
//! let input = [128, 128, 0].repeat(105);
//! let rendered = screen.render_to_vec(Separation::Demichel, window, &input)?;
//! assert_eq!(rendered.tallies, [26, 26, 0, 27, 0, 0, 0, 26]);
//! # Ok::<(), cavzemil::Refusal>(())
//! ```
//!
//! Pictures and sheets of any size are rendered a part at a time:
//! [`Window::bands`] and [`bands`] cut a picture into bands of rows, and [`Screen::moved`] goes beyond the
//! 65,536 columns and rows of a sheet.
//!
//! A call that can't be served answers a [`Refusal`], and then lent memory stays as it was (rule 11.3). Which
//! one it is, the library judges. Every call is a function of what it is handed, without any shared state, and
//! may be made from several threads at once. None panics, unless the linked archive answers what Cavzemil's
//! can't: then it is another's, or follows other rules than [`RULES`].

#![forbid(unsafe_code)]
#![warn(missing_docs, clippy::missing_errors_doc, clippy::must_use_candidate)]

mod bands;
mod bill;
mod colorant;
mod colour;
mod filled;
mod lengths;
mod make;
mod plates;
mod predict;
mod refusal;
mod render;
mod screen;
mod separation;
mod slope;

pub use bands::bands;
pub use bill::charge;
pub use colorant::{Colorant, UnknownColorant};
pub use colour::{Inks, Xyz};
pub use lengths::{cells_len, input_len, plane_len, planes_len};
pub use make::Screen;
pub use plates::{pack, pack_to_vec, planes, unpack, unpack_to_vec};
pub use refusal::Refusal;
pub use render::Rendered;
pub use screen::Brick;
pub use separation::{Separation, UnknownSeparation};
pub use slope::{ParseSlopeError, Slope};

#[doc(inline)]
pub use cavzemil_sys::ffi::{Screen as Record, Window};

/// C's numbers by calls on slices, of a [`Record`] that may be no screen.
///
/// ```
/// use cavzemil::{calls, Record};
///
/// let record = calls::make_screen(4, 7, 70, 1, 0).screen;
/// assert_eq!(calls::counts_of(record, 1, [51, 102, 204]).of, [0, 0, 28, 0, 0, 14, 14, 14]);
/// assert_eq!(calls::counts_of(record, 2, [51, 102, 204]).refusal, 100);
/// assert_eq!(calls::counts_of(Record { shift: 21, ..record }, 1, [51, 102, 204]).refusal, 15);
/// ```
///
/// The module is that of the package `cavzemil-sys`.
#[doc(inline)]
pub use cavzemil_sys::calls;

/// The C functions themselves. The module is that of the package `cavzemil-sys`.
#[doc(inline)]
pub use cavzemil_sys::ffi;

/// The number of the rules that this crate is written for: how many change requests, in their order, the
/// rules have in them. Houses whose numbers are equal follow the same rules (rule 14.1).
///
/// The linked archive's own number is worth asking for where `CAVZEMIL_ARCHIVE` names another archive than
/// the repository's, which may follow other rules:
///
/// ```
/// assert_eq!(cavzemil::calls::rules(), cavzemil::RULES);
/// ```
pub const RULES: u32 = 6;

/// The number of the rules that the linked archive follows (rule 14.1).
///
/// ```
/// assert_eq!(cavzemil::rules(), cavzemil::RULES);
/// ```
#[must_use]
pub fn rules() -> u32 {
    calls::rules()
}
