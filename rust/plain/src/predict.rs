//! Rules 9.1 to 9.5: predicted colour.

use crate::quantise::counts;
use crate::screen::{screen_refusal, Screen};
use crate::separation::{Inks, Separation};
use crate::NO_SUCH_SEPARATION;

/// The predicted X, Y, Z, or a refusal; refusal 11 names the first bad primary's colorant (rule 9.5).
#[derive(Clone, Copy, Debug, Default)]
pub struct Prediction {
    pub refusal: u32,
    pub colorant: u32,
    pub xyz: [f64; 3],
}

/// Whether a primary's value is admitted: 0 to 200, and so no NaN (rule 9.2).
fn good(value: f64) -> bool {
    (0.0..=200.0).contains(&value)
}

/// The place, counted from 0, of the first primary in a run that has a value which is not admitted.
pub(crate) fn first_bad(primaries: &[f64]) -> Option<usize> {
    primaries.chunks(3).position(|primary| !primary.iter().all(|value| good(*value)))
}

/// X, Y, Z of the primary at a place, counted from 0, of a run.
pub(crate) fn primary(primaries: &[f64], place: usize) -> [f64; 3] {
    [0, 1, 2].map(|coordinate| primaries[3 * place + coordinate])
}

/// X, Y, Z of a patch: for each the sum of eight weights times their primaries' values, in the order in which
/// they are handed in, divided by N (rules 9.3 and 16.5).
pub(crate) fn mean(n: u32, weights: [u32; 8], primaries: [[f64; 3]; 8]) -> [f64; 3] {
    [0, 1, 2].map(|coordinate| {
        let mut sum = 0.0;
        for (weight, primary) in weights.iter().zip(primaries) {
            sum += f64::from(*weight) * primary[coordinate];
        }
        sum / f64::from(n)
    })
}

/// The predicted colour, from eight primaries of X, Y, Z each, or why it is refused. A length other than 24
/// is refused as 6, once the screen has passed and before any value is looked at (rule 14.4).
pub fn predict(s: Screen, separation: u32, inks: Inks, primaries: &[f64]) -> Prediction {
    let Some(separation) = Separation::from_number(separation) else {
        return Prediction { refusal: NO_SUCH_SEPARATION, ..Prediction::default() };
    };
    let refusal = screen_refusal(s);
    if refusal != 0 {
        return Prediction { refusal, ..Prediction::default() };
    }
    if primaries.len() != 24 {
        return Prediction { refusal: 6, ..Prediction::default() };
    }
    if let Some(colorant) = first_bad(primaries) {
        return Prediction { refusal: 11, colorant: colorant as u32, ..Prediction::default() };
    }
    let counts = counts(s.n, separation, inks);
    let primaries = [0, 1, 2, 3, 4, 5, 6, 7].map(|colorant| primary(primaries, colorant));
    Prediction { refusal: 0, colorant: 0, xyz: mean(s.n, counts, primaries) }
}
