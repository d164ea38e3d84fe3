//! The C functions on slices: each hands a slice on as its pointer and its length, and answers C's numbers
//! as they are.
//!
//! Nothing is tested here: a call that can't be served answers its refusal's number, and a separation that
//! there is not answers 100 (rule 14.3). A screen may be any record.
//!
//! ```
//! use cavzemil_sys::{calls, ffi::Screen};
//!
//! let screen = calls::make_screen(4, 7, 70, 1, 0).screen;
//! assert_eq!(calls::counts_of(screen, 1, [51, 102, 204]).of, [0, 0, 28, 0, 0, 14, 14, 14]);
//! assert_eq!(calls::counts_of(screen, 2, [51, 102, 204]).refusal, 100);
//! assert_eq!(calls::counts_of(Screen { shift: 21, ..screen }, 1, [51, 102, 204]).refusal, 15);
//! ```

use crate::ffi::{
    self, BrickSizes, Cell, Cellular, Charge, Counts, Made, Place, Prediction, Prices, Rendering, Screen,
    Window,
};

/// The number of the rules that the linked archive follows (rule 14.1).
#[must_use]
pub fn rules() -> u32 {
    // SAFETY: the call takes no memory.
    unsafe { ffi::cavzemil_rules() }
}

/// The screen of five numbers, or a refusal and eight zeros (rule 17.2).
#[must_use]
pub fn make_screen(a: u32, b: u32, n: u32, k: u32, g: u32) -> Made {
    // SAFETY: the call takes no memory.
    unsafe { ffi::cavzemil_make_screen(a, b, n, k, g) }
}

/// The screen with another offset, or a refusal and the screen as it was (rules 17.3 and 17.4).
#[must_use]
pub fn replace_offset(s: Screen, g: u32) -> Made {
    // SAFETY: the call takes no memory.
    unsafe { ffi::cavzemil_replace_offset(s, g) }
}

/// The screen with another number of subscreens, or a refusal and the screen as it was.
#[must_use]
pub fn replace_subscreens(s: Screen, k: u32) -> Made {
    // SAFETY: the call takes no memory.
    unsafe { ffi::cavzemil_replace_subscreens(s, k) }
}

/// The screen with another cell count, or a refusal and the screen as it was.
#[must_use]
pub fn replace_cells(s: Screen, n: u32) -> Made {
    // SAFETY: the call takes no memory.
    unsafe { ffi::cavzemil_replace_cells(s, n) }
}

/// The screen as it is seen from column x and row y, or a refusal and the screen as it was (rule 19.2).
#[must_use]
pub fn moved(s: Screen, x: u64, y: u64) -> Made {
    // SAFETY: the call takes no memory.
    unsafe { ffi::cavzemil_moved(s, x, y) }
}

/// The phase of a place (rule 2.4).
#[must_use]
pub fn phase_at(s: Screen, x: u32, y: u32) -> Place {
    // SAFETY: the call takes no memory.
    unsafe { ffi::cavzemil_phase_at(s, x, y) }
}

/// The brick's columns, rows and shift (rule 3.5).
#[must_use]
pub fn brick_of(s: Screen) -> BrickSizes {
    // SAFETY: the call takes no memory.
    unsafe { ffi::cavzemil_brick_of(s) }
}

/// Fills the first N places of a brick buffer (rule 3.7).
#[must_use]
pub fn fill_brick(s: Screen, brick: &mut [u16]) -> u32 {
    // SAFETY: the pointer comes with the length of its own slice.
    unsafe { ffi::cavzemil_fill_brick(s, brick.as_mut_ptr(), brick.len()) }
}

/// The counts of the eight colorants, of inks c, m, y (rule 5.5).
#[must_use]
pub fn counts_of(s: Screen, separation: u32, [c, m, y]: [u8; 3]) -> Counts {
    // SAFETY: the call takes no memory.
    unsafe { ffi::cavzemil_counts_of(s, separation, c, m, y) }
}

/// The colorant of a place, of inks c, m, y (rule 7.8).
#[must_use]
pub fn cell_at(s: Screen, separation: u32, x: u32, y: u32, [c, m, yellow]: [u8; 3]) -> Cell {
    // SAFETY: the call takes no memory.
    unsafe { ffi::cavzemil_cell_at(s, separation, x, y, c, m, yellow) }
}

/// Renders a window, phases worked out (rule 7.5).
#[must_use]
pub fn render(s: Screen, separation: u32, w: Window, input: &[u8], out: &mut [u8]) -> Rendering {
    let (pixels, cells) = (input.as_ptr(), out.as_mut_ptr());
    // SAFETY: both pointers come with the lengths of their own slices.
    unsafe { ffi::cavzemil_render(s, separation, w, pixels, input.len(), cells, out.len()) }
}

/// Renders a window, phases read from a brick buffer (rule 7.6).
#[must_use]
pub fn render_brick(
    s: Screen,
    separation: u32,
    w: Window,
    input: &[u8],
    brick: &[u16],
    out: &mut [u8],
) -> Rendering {
    // SAFETY: the three pointers come with the lengths of their own slices.
    unsafe {
        ffi::cavzemil_render_brick(
            s,
            separation,
            w,
            input.as_ptr(),
            input.len(),
            brick.as_ptr(),
            brick.len(),
            out.as_mut_ptr(),
            out.len(),
        )
    }
}

/// Packs cells into eight planes (rule 8.5).
#[must_use]
pub fn pack(columns: u32, rows: u32, cells: &[u8], planes: &mut [u8]) -> u32 {
    // SAFETY: both pointers come with the lengths of their own slices.
    unsafe {
        ffi::cavzemil_pack(columns, rows, cells.as_ptr(), cells.len(), planes.as_mut_ptr(), planes.len())
    }
}

/// Unpacks eight planes into cells (rule 8.6).
#[must_use]
pub fn unpack(columns: u32, rows: u32, planes: &[u8], cells: &mut [u8]) -> u32 {
    // SAFETY: both pointers come with the lengths of their own slices.
    unsafe {
        ffi::cavzemil_unpack(columns, rows, planes.as_ptr(), planes.len(), cells.as_mut_ptr(), cells.len())
    }
}

/// The predicted colour of inks c, m, y (rule 9.1), from X, Y, Z a colorant; other than 24 values are
/// refused as 6 (rule 14.4).
#[must_use]
pub fn predict(s: Screen, separation: u32, [c, m, y]: [u8; 3], primaries: &[f64]) -> Prediction {
    // SAFETY: the pointer comes with the length of its own slice.
    unsafe { ffi::cavzemil_predict(s, separation, c, m, y, primaries.as_ptr(), primaries.len()) }
}

/// The predicted colour of inks c, m, y (rule 16.1), from X, Y, Z a set of colorants; other than 765 values
/// are refused as 14 (rule 16.2).
#[must_use]
pub fn predict_cellular(s: Screen, separation: u32, [c, m, y]: [u8; 3], primaries: &[f64]) -> Cellular {
    // SAFETY: the pointer comes with the length of its own slice.
    unsafe { ffi::cavzemil_predict_cellular(s, separation, c, m, y, primaries.as_ptr(), primaries.len()) }
}

/// The charge of a job (rule 15.4), from prices by colorant and its windows' tallies, eight a window; where 8
/// does not divide their number, 6 is answered (rule 15.1).
#[must_use]
pub fn charge_of(prices: [u32; 8], tallies: &[u64]) -> Charge {
    // SAFETY: the pointer comes with the length of its own slice.
    unsafe { ffi::cavzemil_charge_of(Prices { of: prices }, tallies.as_ptr(), tallies.len()) }
}
