//! Rules 5.1 to 5.5 and rules 6.1 to 6.3: counts and subscreens.

use crate::screen::{screen_refusal, Screen};
use crate::separation::{scale, weights, Inks, Separation};
use crate::NO_SUCH_SEPARATION;

/// The counts of the eight colorants, or a refusal.
#[derive(Clone, Copy, Debug, Default, PartialEq, Eq)]
pub struct Counts {
    pub refusal: u32,
    pub of: [u32; 8],
}

/// The running sums C(0) to C(7), each ⌊(2 × N × A(j) + D) / (2 × D)⌋ (rules 5.1 and 5.2).
pub fn running_counts(n: u32, separation: Separation, inks: Inks) -> [u64; 8] {
    let weights = weights(separation, inks);
    let d = scale(separation);
    let mut running = [0; 8];
    let mut sum = 0;
    for j in 0..8 {
        sum += weights[j];
        running[j] = (2 * u64::from(n) * sum + d) / (2 * d);
    }
    running
}

/// The counts of an admitted screen: what C rises by from colorant to colorant (rule 5.4).
pub(crate) fn counts(n: u32, separation: Separation, inks: Inks) -> [u32; 8] {
    let running = running_counts(n, separation, inks);
    let mut counts = [0; 8];
    for j in 0..8 {
        let before = if j == 0 { 0 } else { running[j - 1] };
        counts[j] = (running[j] - before) as u32;
    }
    counts
}

/// The counts of three ink values, or why they are refused (rule 5.5).
pub fn counts_of(s: Screen, separation: u32, inks: Inks) -> Counts {
    let Some(separation) = Separation::from_number(separation) else {
        return Counts { refusal: NO_SUCH_SEPARATION, of: [0; 8] };
    };
    match screen_refusal(s) {
        0 => Counts { refusal: 0, of: counts(s.n, separation, inks) },
        refusal => Counts { refusal, of: [0; 8] },
    }
}

/// The cells of subscreen k, ⌊(N + k) / K⌋ (rule 6.1).
pub fn cells_of_subscreen(s: Screen, k: u32) -> u32 {
    (s.n + k) / s.k
}

/// The subscreen k of a phase, and its distance q from the first phase of k (rule 6.2).
pub fn subscreen_of(s: Screen, phase: u32) -> (u32, u32) {
    let mut k = 0;
    let mut start = 0;
    while phase >= start + cells_of_subscreen(s, k) {
        start += cells_of_subscreen(s, k);
        k += 1;
    }
    (k, phase - start)
}

/// The colorant of a phase: the first j for which q < ⌊(C(j) + k) / K⌋ (rule 6.3).
pub(crate) fn colorant(s: Screen, separation: Separation, inks: Inks, phase: u32) -> u8 {
    let running = running_counts(s.n, separation, inks);
    let (k, q) = subscreen_of(s, phase);
    for (j, count) in running.iter().enumerate() {
        if u64::from(q) < (count + u64::from(k)) / u64::from(s.k) {
            return j as u8;
        }
    }
    unreachable!("C(7) is N, so that white ends with its subscreen")
}
