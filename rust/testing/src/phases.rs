//! Phases of places that are some steps apart (rules 2.3, 2.5 and 3.4).

use crate::{draw, Subject};
use cavzemil_plain::random::Random;

/// From drawn places of drawn screens: a step right, a step down, along a line, and a brick right and down.
pub fn steps_lead_to_the_phases_due<S: Subject>() {
    let mut random = Random::new(31);
    for _ in 0..100_000 {
        let s = draw::screen(&mut random);
        let x = draw::edge(&mut random, 65_535 - s.columns.max(s.b));
        let y = draw::edge(&mut random, 65_535 - s.a.max(s.rows));
        let phase = |right, down| {
            let place = S::phase_at(s, x + right, y + down);
            assert_eq!(place.refusal, 0, "{s:?}");
            place.phase
        };
        let first = phase(0, 0);
        assert_eq!(phase(1, 0), (first + s.a) % s.n, "right of ({x}, {y}), {s:?}");
        assert_eq!(phase(0, 1), (first + s.b) % s.n, "below ({x}, {y}), {s:?}");
        assert_eq!(phase(s.b, 0), phase(0, s.a), "along the line from ({x}, {y}), {s:?}");
        assert_eq!(phase(s.columns, 0), first, "a brick right of ({x}, {y}), {s:?}");
        assert_eq!(phase(s.shift, s.rows), first, "a brick below ({x}, {y}), {s:?}");
    }
}
