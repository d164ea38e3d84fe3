//! Rules 7.1 to 7.8: the renderers, and rule 3.9: how a brick is read.

use crate::brick::true_brick;
use crate::quantise::colorant;
use crate::screen::{phase, place_refusal, screen_refusal, Screen, SHEET};
use crate::separation::{Inks, Separation};
use crate::NO_SUCH_SEPARATION;

/// A window: its corner X, Y, and its columns W and rows R, which may be 0 (rule 7.1).
#[derive(Clone, Copy, Debug, PartialEq, Eq)]
pub struct Window {
    pub x: u32,
    pub y: u32,
    pub columns: u32,
    pub rows: u32,
}

/// The colorant of a lone place, or a refusal.
#[derive(Clone, Copy, Debug, Default, PartialEq, Eq)]
pub struct Cell {
    pub refusal: u32,
    pub colorant: u32,
}

/// The eight tallies of a rendered window, or a refusal.
#[derive(Clone, Copy, Debug, Default, PartialEq, Eq)]
pub struct Rendering {
    pub refusal: u32,
    pub tallies: [u64; 8],
}

/// The colorant at (x, y) for three ink values, or why it is refused (rule 7.8).
pub fn cell_at(s: Screen, separation: u32, x: u32, y: u32, inks: Inks) -> Cell {
    let Some(separation) = Separation::from_number(separation) else {
        return Cell { refusal: NO_SUCH_SEPARATION, colorant: 0 };
    };
    match place_refusal(s, x, y) {
        0 => Cell { refusal: 0, colorant: u32::from(colorant(s, separation, inks, phase(s, x, y))) },
        refusal => Cell { refusal, colorant: 0 },
    }
}

/// The refusal of the screen or else the lowest of 5 to 7 that applies to a rendering, or 0.
fn render_refusal(s: Screen, w: Window, input: &[u8], out: &[u8]) -> u32 {
    let refusal = screen_refusal(s);
    if refusal != 0 {
        return refusal;
    }
    let (columns, rows) = (u64::from(w.columns), u64::from(w.rows));
    if u64::from(w.x) + columns > SHEET || u64::from(w.y) + rows > SHEET {
        5
    } else if input.len() as u64 != 3 * columns * rows {
        6
    } else if out.len() as u64 != columns * rows {
        7
    } else {
        0
    }
}

/// Writes the colorant of every cell, by the pixel's own ink values and the phase that is asked for by place
/// (rule 7.3), and tallies what it writes (rule 7.4).
fn write_cells(
    s: Screen,
    separation: Separation,
    w: Window,
    input: &[u8],
    out: &mut [u8],
    phase_of: impl Fn(u32, u32) -> u32,
) -> Rendering {
    let mut tallies = [0; 8];
    let mut cell = 0;
    for y in w.y..w.y + w.rows {
        for x in w.x..w.x + w.columns {
            let inks = [input[3 * cell], input[3 * cell + 1], input[3 * cell + 2]];
            let written = colorant(s, separation, inks, phase_of(x, y));
            out[cell] = written;
            tallies[usize::from(written)] += 1;
            cell += 1;
        }
    }
    Rendering { refusal: 0, tallies }
}

/// Renders a window with phases worked out, or answers why it is refused (rule 7.5).
pub fn render(s: Screen, separation: u32, w: Window, input: &[u8], out: &mut [u8]) -> Rendering {
    let Some(separation) = Separation::from_number(separation) else {
        return Rendering { refusal: NO_SUCH_SEPARATION, ..Rendering::default() };
    };
    match render_refusal(s, w, input, out) {
        0 => write_cells(s, separation, w, input, out, |x, y| phase(s, x, y)),
        refusal => Rendering { refusal, ..Rendering::default() },
    }
}

/// The place of the brick buffer that serves (x, y), columns and rows counted from the sheet's corner
/// (rule 3.9).
fn brick_place(s: Screen, x: u32, y: u32) -> usize {
    let bricks_down = i64::from(y / s.rows);
    let unshifted = i64::from(x) - bricks_down * i64::from(s.shift);
    let u = unshifted.rem_euclid(i64::from(s.columns)) as usize;
    let v = (y % s.rows) as usize;
    v * s.columns as usize + u
}

/// Whether a brick buffer is a true brick of an admitted screen (rule 3.8).
fn brick_is_true(s: Screen, brick: &[u16]) -> bool {
    brick.len() >= s.n as usize && brick[..s.n as usize] == true_brick(s)[..]
}

/// Renders a window with phases read from the brick buffer, or answers why it is refused (rule 7.6).
pub fn render_brick(
    s: Screen,
    separation: u32,
    w: Window,
    input: &[u8],
    brick: &[u16],
    out: &mut [u8],
) -> Rendering {
    let Some(separation) = Separation::from_number(separation) else {
        return Rendering { refusal: NO_SUCH_SEPARATION, ..Rendering::default() };
    };
    let refusal = render_refusal(s, w, input, out);
    if refusal != 0 {
        return Rendering { refusal, ..Rendering::default() };
    }
    if !brick_is_true(s, brick) {
        return Rendering { refusal: 8, ..Rendering::default() };
    }
    write_cells(s, separation, w, input, out, |x, y| u32::from(brick[brick_place(s, x, y)]))
}
