//! The compiled library's calls, in the plain implementation's types.

use cavzemil_plain::{Brick, Cell, Cellular, Charge, Counts, Inks, Made, Place, Prediction, Rendering};
use cavzemil_plain::{Screen, Window};
use cavzemil_sys::{calls, ffi};
use cavzemil_testing::Subject;

/// The compiled library.
pub struct Compiled;

/// A screen as the C interface takes it.
pub fn c_screen(s: Screen) -> ffi::Screen {
    let Screen { a, b, n, k, g, columns, rows, shift } = s;
    ffi::Screen { a, b, n, k, g, columns, rows, shift }
}

/// A window as the C interface takes it.
pub fn c_window(w: Window) -> ffi::Window {
    ffi::Window { x: w.x, y: w.y, columns: w.columns, rows: w.rows }
}

/// A rendering from the C interface.
fn rendering(answer: ffi::Rendering) -> Rendering {
    Rendering { refusal: answer.refusal, tallies: answer.tallies }
}

/// A screen from the C interface, with its refusal.
fn made(answer: ffi::Made) -> Made {
    let ffi::Screen { a, b, n, k, g, columns, rows, shift } = answer.screen;
    Made { refusal: answer.refusal, screen: Screen { a, b, n, k, g, columns, rows, shift } }
}

impl Subject for Compiled {
    fn make_screen(a: u32, b: u32, n: u32, k: u32, g: u32) -> Made {
        made(calls::make_screen(a, b, n, k, g))
    }

    fn replace_offset(s: Screen, g: u32) -> Made {
        made(calls::replace_offset(c_screen(s), g))
    }

    fn replace_subscreens(s: Screen, k: u32) -> Made {
        made(calls::replace_subscreens(c_screen(s), k))
    }

    fn replace_cells(s: Screen, n: u32) -> Made {
        made(calls::replace_cells(c_screen(s), n))
    }

    fn moved(s: Screen, x: u64, y: u64) -> Made {
        made(calls::moved(c_screen(s), x, y))
    }

    fn phase_at(s: Screen, x: u32, y: u32) -> Place {
        let answer = calls::phase_at(c_screen(s), x, y);
        Place { refusal: answer.refusal, phase: answer.phase }
    }

    fn brick_of(s: Screen) -> Brick {
        let answer = calls::brick_of(c_screen(s));
        Brick { refusal: answer.refusal, columns: answer.columns, rows: answer.rows, shift: answer.shift }
    }

    fn fill_brick(s: Screen, brick: &mut [u16]) -> u32 {
        calls::fill_brick(c_screen(s), brick)
    }

    fn counts_of(s: Screen, separation: u32, inks: Inks) -> Counts {
        let answer = calls::counts_of(c_screen(s), separation, inks);
        Counts { refusal: answer.refusal, of: answer.of }
    }

    fn cell_at(s: Screen, separation: u32, x: u32, y: u32, inks: Inks) -> Cell {
        let answer = calls::cell_at(c_screen(s), separation, x, y, inks);
        Cell { refusal: answer.refusal, colorant: answer.colorant }
    }

    fn render(s: Screen, separation: u32, w: Window, input: &[u8], out: &mut [u8]) -> Rendering {
        rendering(calls::render(c_screen(s), separation, c_window(w), input, out))
    }

    fn render_brick(
        s: Screen,
        separation: u32,
        w: Window,
        input: &[u8],
        brick: &[u16],
        out: &mut [u8],
    ) -> Rendering {
        rendering(calls::render_brick(c_screen(s), separation, c_window(w), input, brick, out))
    }

    fn pack(columns: u32, rows: u32, cells: &[u8], planes: &mut [u8]) -> u32 {
        calls::pack(columns, rows, cells, planes)
    }

    fn unpack(columns: u32, rows: u32, planes: &[u8], cells: &mut [u8]) -> u32 {
        calls::unpack(columns, rows, planes, cells)
    }

    fn predict(s: Screen, separation: u32, inks: Inks, primaries: &[f64]) -> Prediction {
        let answer = calls::predict(c_screen(s), separation, inks, primaries);
        Prediction { refusal: answer.refusal, colorant: answer.colorant, xyz: [answer.x, answer.y, answer.z] }
    }

    fn predict_cellular(s: Screen, separation: u32, inks: Inks, primaries: &[f64]) -> Cellular {
        let answer = calls::predict_cellular(c_screen(s), separation, inks, primaries);
        Cellular { refusal: answer.refusal, set: answer.set, xyz: [answer.x, answer.y, answer.z] }
    }

    fn charge_of(prices: [u32; 8], tallies: &[u64]) -> Charge {
        let answer = calls::charge_of(prices, tallies);
        Charge { refusal: answer.refusal, cents: answer.cents }
    }
}
