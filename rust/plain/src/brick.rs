//! Rules 3.1 to 3.8: the brick and its buffer.

use crate::screen::{phase, screen_refusal, Screen};

/// The brick of a screen: L columns, H rows and the shift S, or a refusal.
#[derive(Clone, Copy, Debug, Default, PartialEq, Eq)]
pub struct Brick {
    pub refusal: u32,
    pub columns: u32,
    pub rows: u32,
    pub shift: u32,
}

/// The greatest common divisor, by Euclid (rule 3.1).
fn greatest_common_divisor(first: u32, second: u32) -> u32 {
    if second == 0 {
        first
    } else {
        greatest_common_divisor(second, first % second)
    }
}

/// The shift S, from 0 to L − 1: N divides a × S + b × H (rule 3.3). So a × S is how far b × H is from some
/// multiple of N above it, and since a × L is a multiple of N too, the first such gap that a divides tells S.
fn shift(a: u32, b: u32, n: u32, columns: u32, rows: u32) -> u32 {
    let first = n - b * rows % n;
    let mut gaps = (0..a).map(|times| first + times * n);
    let multiple =
        gaps.find(|gap| gap.is_multiple_of(a)).expect("an admitted slope and cell count have a shift");
    multiple / a % columns
}

/// L, H and S of an admitted slope and cell count (rules 3.1 to 3.3).
pub(crate) fn brick_sizes(a: u32, b: u32, n: u32) -> [u32; 3] {
    let rows = greatest_common_divisor(a, n);
    let columns = n / rows;
    [columns, rows, shift(a, b, n, columns, rows)]
}

/// L, H and S as a screen stores them, or why it is refused (rule 3.5).
pub fn brick_of(s: Screen) -> Brick {
    match screen_refusal(s) {
        0 => Brick { refusal: 0, columns: s.columns, rows: s.rows, shift: s.shift },
        refusal => Brick { refusal, ..Brick::default() },
    }
}

/// The N numbers that an admitted screen's brick buffer holds, row by row of the brick (rule 3.6).
pub(crate) fn true_brick(s: Screen) -> Vec<u16> {
    let mut places = Vec::new();
    for v in 0..s.rows {
        for u in 0..s.columns {
            places.push(phase(s, u, v) as u16);
        }
    }
    places
}

/// Fills the first N places of a brick buffer, or answers why it is refused (rule 3.7).
pub fn fill_brick(s: Screen, brick: &mut [u16]) -> u32 {
    let refusal = screen_refusal(s);
    if refusal != 0 {
        return refusal;
    }
    if brick.len() < s.n as usize {
        return 8;
    }
    brick[..s.n as usize].copy_from_slice(&true_brick(s));
    0
}
