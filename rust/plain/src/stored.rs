//! Rules 17.1 to 17.5: stored numbers, how a screen is made, and how one of its numbers is replaced.

use crate::brick::brick_sizes;
use crate::screen::{numbers_refusal, screen_refusal, Screen};

/// The screen that was made, or else a refusal and the screen that is answered beside it.
#[derive(Clone, Copy, Debug, Default, PartialEq, Eq)]
pub struct Made {
    pub refusal: u32,
    pub screen: Screen,
}

/// Whether the record of a screen that 1 to 4 admit is true: it stores L, H and S (rule 17.1).
pub(crate) fn record_is_true(s: Screen) -> bool {
    [s.columns, s.rows, s.shift] == brick_sizes(s.a, s.b, s.n)
}

/// The screen of five numbers whose record is true, or eight zeros and why it is refused (rule 17.2).
pub fn make_screen(a: u32, b: u32, n: u32, k: u32, g: u32) -> Made {
    match numbers_refusal(a, b, n, k, g) {
        0 => {
            let [columns, rows, shift] = brick_sizes(a, b, n);
            Made { refusal: 0, screen: Screen { a, b, n, k, g, columns, rows, shift } }
        }
        refusal => Made { refusal, ..Made::default() },
    }
}

/// A screen with another g, or the same screen and why it is refused.
pub fn replace_offset(s: Screen, g: u32) -> Made {
    replace(s, [s.a, s.b, s.n, s.k, g])
}

/// A screen with another K, or the same screen and why it is refused.
pub fn replace_subscreens(s: Screen, k: u32) -> Made {
    replace(s, [s.a, s.b, s.n, k, s.g])
}

/// A screen with another N, or the same screen and why it is refused.
pub fn replace_cells(s: Screen, n: u32) -> Made {
    replace(s, [s.a, s.b, n, s.k, s.g])
}

/// Judges the screen that is handed in, and only then its new numbers (rule 17.3). Refused, the screen is
/// handed back as it was (rule 17.4).
fn replace(s: Screen, [a, b, n, k, g]: [u32; 5]) -> Made {
    let refusal = screen_refusal(s);
    if refusal != 0 {
        return Made { refusal, screen: s };
    }
    let made = make_screen(a, b, n, k, g);
    if made.refusal != 0 {
        return Made { screen: s, ..made };
    }
    made
}
