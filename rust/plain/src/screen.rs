//! Rules 1.1 to 1.6 and rules 2.1 to 2.4: the screen and the phase.

use crate::stored::record_is_true;

/// A screen: the slope a/b, the cell count N, the number of subscreens K and the offset g, and with them the
/// columns, the rows and the shift of its brick (rule 1.1).
#[derive(Clone, Copy, Debug, Default, PartialEq, Eq)]
pub struct Screen {
    pub a: u32,
    pub b: u32,
    pub n: u32,
    pub k: u32,
    pub g: u32,
    pub columns: u32,
    pub rows: u32,
    pub shift: u32,
}

/// The answer for one place of the sheet: a refusal, or the phase there.
#[derive(Clone, Copy, Debug, Default, PartialEq, Eq)]
pub struct Place {
    pub refusal: u32,
    pub phase: u32,
}

/// The columns, and the rows, of the sheet (rule 2.1).
pub(crate) const SHEET: u64 = 65_536;

/// Whether some number above 1 divides both a and b.
fn common_divisor_above_one(a: u32, b: u32) -> bool {
    (2..=a).any(|divisor| a.is_multiple_of(divisor) && b.is_multiple_of(divisor))
}

/// Whether a slope is admitted (rule 1.2).
fn slope_admitted(a: u32, b: u32) -> bool {
    1 <= a && a < b && b <= 64 && !common_divisor_above_one(a, b)
}

/// The lowest of the refusals 1 to 4 that applies to five numbers, or 0 (rules 1.2 to 1.5).
pub(crate) fn numbers_refusal(a: u32, b: u32, n: u32, k: u32, g: u32) -> u32 {
    if !slope_admitted(a, b) {
        1
    } else if !(1..=4096).contains(&n) {
        2
    } else if !(1..=16).contains(&k) || k > n {
        3
    } else if g >= n {
        4
    } else {
        0
    }
}

/// The lowest of the refusals 1 to 4 that applies to a screen, 15 where none does but its record is not true,
/// or 0 where it is admitted (rule 1.6).
pub fn screen_refusal(s: Screen) -> u32 {
    match numbers_refusal(s.a, s.b, s.n, s.k, s.g) {
        0 if !record_is_true(s) => 15,
        refusal => refusal,
    }
}

/// The phase of (x, y): (a × x + b × y − g) mod N (rule 2.2).
pub fn phase(s: Screen, x: u32, y: u32) -> u32 {
    let along = i64::from(s.a) * i64::from(x);
    let down = i64::from(s.b) * i64::from(y);
    let value = along + down - i64::from(s.g);
    value.rem_euclid(i64::from(s.n)) as u32
}

/// The refusal of the screen or else of a lone place, which is judged as a window of one cell (rule 11.9).
pub(crate) fn place_refusal(s: Screen, x: u32, y: u32) -> u32 {
    let refusal = screen_refusal(s);
    if refusal != 0 {
        refusal
    } else if u64::from(x) + 1 > SHEET || u64::from(y) + 1 > SHEET {
        5
    } else {
        0
    }
}

/// The phase of (x, y), or why it is refused (rule 2.4).
pub fn phase_at(s: Screen, x: u32, y: u32) -> Place {
    match place_refusal(s, x, y) {
        0 => Place { refusal: 0, phase: phase(s, x, y) },
        refusal => Place { refusal, phase: 0 },
    }
}
