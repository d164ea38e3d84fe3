//! What promises are put to: an implementation, by the calls of the C interface in the plain implementation's
//! types.

use cavzemil_plain as plain;
use cavzemil_plain::{Brick, Cell, Cellular, Charge, Counts, Inks, Made, Place, Prediction, Rendering};
use cavzemil_plain::{Screen, Window};

/// An implementation of the rules.
pub trait Subject {
    /// The screen of five numbers.
    fn make_screen(a: u32, b: u32, n: u32, k: u32, g: u32) -> Made;

    /// The screen with another offset.
    fn replace_offset(s: Screen, g: u32) -> Made;

    /// The screen with another number of subscreens.
    fn replace_subscreens(s: Screen, k: u32) -> Made;

    /// The screen with another cell count.
    fn replace_cells(s: Screen, n: u32) -> Made;

    /// The screen as it is seen from another corner.
    fn moved(s: Screen, x: u64, y: u64) -> Made;

    /// The phase of a place.
    fn phase_at(s: Screen, x: u32, y: u32) -> Place;

    /// The brick's sizes.
    fn brick_of(s: Screen) -> Brick;

    /// Fills a brick buffer.
    fn fill_brick(s: Screen, brick: &mut [u16]) -> u32;

    /// The counts of three ink values.
    fn counts_of(s: Screen, separation: u32, inks: Inks) -> Counts;

    /// The colorant of a place.
    fn cell_at(s: Screen, separation: u32, x: u32, y: u32, inks: Inks) -> Cell;

    /// Renders a window, phases worked out.
    fn render(s: Screen, separation: u32, w: Window, input: &[u8], out: &mut [u8]) -> Rendering;

    /// Renders a window, phases read from a brick buffer.
    fn render_brick(
        s: Screen,
        separation: u32,
        w: Window,
        input: &[u8],
        brick: &[u16],
        out: &mut [u8],
    ) -> Rendering;

    /// Packs cells into eight planes.
    fn pack(columns: u32, rows: u32, cells: &[u8], planes: &mut [u8]) -> u32;

    /// Unpacks eight planes into cells.
    fn unpack(columns: u32, rows: u32, planes: &[u8], cells: &mut [u8]) -> u32;

    /// The predicted colour.
    fn predict(s: Screen, separation: u32, inks: Inks, primaries: &[f64]) -> Prediction;

    /// The predicted colour from all sets of colorants.
    fn predict_cellular(s: Screen, separation: u32, inks: Inks, primaries: &[f64]) -> Cellular;

    /// The charge of a job.
    fn charge_of(prices: [u32; 8], tallies: &[u64]) -> Charge;
}

/// The plain implementation.
pub struct Plain;

impl Subject for Plain {
    fn make_screen(a: u32, b: u32, n: u32, k: u32, g: u32) -> Made {
        plain::make_screen(a, b, n, k, g)
    }

    fn replace_offset(s: Screen, g: u32) -> Made {
        plain::replace_offset(s, g)
    }

    fn replace_subscreens(s: Screen, k: u32) -> Made {
        plain::replace_subscreens(s, k)
    }

    fn replace_cells(s: Screen, n: u32) -> Made {
        plain::replace_cells(s, n)
    }

    fn moved(s: Screen, x: u64, y: u64) -> Made {
        plain::moved(s, x, y)
    }

    fn phase_at(s: Screen, x: u32, y: u32) -> Place {
        plain::phase_at(s, x, y)
    }

    fn brick_of(s: Screen) -> Brick {
        plain::brick_of(s)
    }

    fn fill_brick(s: Screen, brick: &mut [u16]) -> u32 {
        plain::fill_brick(s, brick)
    }

    fn counts_of(s: Screen, separation: u32, inks: Inks) -> Counts {
        plain::counts_of(s, separation, inks)
    }

    fn cell_at(s: Screen, separation: u32, x: u32, y: u32, inks: Inks) -> Cell {
        plain::cell_at(s, separation, x, y, inks)
    }

    fn render(s: Screen, separation: u32, w: Window, input: &[u8], out: &mut [u8]) -> Rendering {
        plain::render(s, separation, w, input, out)
    }

    fn render_brick(
        s: Screen,
        separation: u32,
        w: Window,
        input: &[u8],
        brick: &[u16],
        out: &mut [u8],
    ) -> Rendering {
        plain::render_brick(s, separation, w, input, brick, out)
    }

    fn pack(columns: u32, rows: u32, cells: &[u8], planes: &mut [u8]) -> u32 {
        plain::pack(columns, rows, cells, planes)
    }

    fn unpack(columns: u32, rows: u32, planes: &[u8], cells: &mut [u8]) -> u32 {
        plain::unpack(columns, rows, planes, cells)
    }

    fn predict(s: Screen, separation: u32, inks: Inks, primaries: &[f64]) -> Prediction {
        plain::predict(s, separation, inks, primaries)
    }

    fn predict_cellular(s: Screen, separation: u32, inks: Inks, primaries: &[f64]) -> Cellular {
        plain::predict_cellular(s, separation, inks, primaries)
    }

    fn charge_of(prices: [u32; 8], tallies: &[u64]) -> Charge {
        plain::charge_of(prices, tallies)
    }
}
