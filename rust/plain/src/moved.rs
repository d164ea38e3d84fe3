//! Rules 19.1 and 19.2: a screen as it is seen from another corner.

use crate::screen::{screen_refusal, Screen};
use crate::stored::Made;

/// The screen whose phase at (u, v) is that of this one at (X + u, Y + v), or the same screen and why it is
/// refused. Its offset is (g − a × X − b × Y) mod N, worked out in numbers that have room for each product.
pub fn moved(s: Screen, x: u64, y: u64) -> Made {
    let refusal = screen_refusal(s);
    if refusal != 0 {
        return Made { refusal, screen: s };
    }
    let along = i128::from(s.a) * i128::from(x);
    let down = i128::from(s.b) * i128::from(y);
    let offset = (i128::from(s.g) - along - down).rem_euclid(i128::from(s.n));
    Made { refusal: 0, screen: Screen { g: offset as u32, ..s } }
}
