//! Records that store other numbers than those of their brick: refused as worked out (rules 11.19 and 12.19),
//! and by every call before all else but 1 to 4 and 100 (rule 11.2).

use crate::draw::record;
use crate::making::{with_stored_of, Replacement};
use crate::{Subject, DEMICHEL, KUEPPERS};
use cavzemil_plain::{Brick, Cell, Counts, Made, Place, Rendering, Screen, Window};

/// Records like this one that store other numbers: one of them beside its own, a shift that is larger by all
/// columns, the shift to the left, two in each other's place, zeros, those of one cell less, and those of a
/// higher brick with as many cells whose shift fits its rows.
pub fn other_records(s: Screen) -> Vec<Screen> {
    let Screen { columns, rows, shift, .. } = s;
    let mut others = vec![
        [columns.wrapping_add(1), rows, shift],
        [columns.wrapping_sub(1), rows, shift],
        [columns, rows.wrapping_add(1), shift],
        [columns, rows.wrapping_sub(1), shift],
        [columns, rows, shift.wrapping_add(1)],
        [columns, rows, shift.wrapping_sub(1)],
        [columns, rows, shift.wrapping_add(columns)],
        [columns, rows, columns.wrapping_sub(shift)],
        [rows, columns, shift],
        [shift, rows, columns],
        [columns, shift, rows],
        [0, 0, 0],
    ];
    let higher = [2, 3, 5, 7].into_iter().filter(|times| columns > 0 && columns.is_multiple_of(*times));
    others.extend(
        higher.map(|times| [columns / times, rows.wrapping_mul(times), shift.wrapping_mul(times) % columns]),
    );
    let others = others.into_iter().map(|[columns, rows, shift]| Screen { columns, rows, shift, ..s });
    let of_one_cell_less = with_stored_of(s, record([s.a, s.b, s.n.wrapping_sub(1), 1, 0]));
    others.chain([of_one_cell_less]).filter(|other| *other != s).collect()
}

/// Rules 11.19 and 12.19.
pub fn false_records_are_refused_as_worked_out<S: Subject>() {
    let s = Screen { a: 4, b: 7, n: 70, k: 2, g: 0, columns: 35, rows: 2, shift: 21 };
    assert_eq!(S::brick_of(s), Brick { refusal: 15, ..Brick::default() });
    assert_eq!(S::replace_cells(s, 0), Made { refusal: 15, screen: s });
    assert_eq!(S::phase_at(s, 65_536, 0), Place { refusal: 15, phase: 0 });
    assert_eq!(S::brick_of(Screen { k: 17, ..s }).refusal, 3);
    assert_eq!(S::brick_of(Screen { columns: 36, shift: 14, ..s }).refusal, 15);
    assert_eq!(S::brick_of(Screen { rows: 1, shift: 14, ..s }).refusal, 15);
    assert_eq!(S::brick_of(Screen { shift: 49, ..s }).refusal, 15);
    assert_eq!(S::brick_of(Screen { shift: 14, ..s }).refusal, 0);
}

/// A screen of N = 70 that is refused, and what is handed in with it: all of it good, or none.
#[derive(Clone, Copy)]
struct Refused {
    screen: Screen,
    good: bool,
}

impl Refused {
    /// One of two choices, for what is good and for what is not.
    fn either<T>(self, good: T, bad: T) -> T {
        if self.good {
            good
        } else {
            bad
        }
    }

    /// Fails unless the calls without a separation are refused so, say nothing else and leave memory alone.
    fn check_calls<S: Subject>(self, refusal: u32) {
        let s = self.screen;
        assert_eq!(S::phase_at(s, self.either(65_535, 65_536), 0), Place { refusal, phase: 0 });
        assert_eq!(S::brick_of(s), Brick { refusal, ..Brick::default() });
        let mut brick = vec![99; self.either(70, 69)];
        assert_eq!(S::fill_brick(s, &mut brick), refusal);
        assert!(brick.iter().all(|phase| *phase == 99));
        let far = self.either(1, u64::MAX);
        assert_eq!(S::moved(s, far, far), Made { refusal, screen: s });
        let number = self.either(1, u32::MAX);
        for call in [Replacement::Offset, Replacement::Subscreens, Replacement::Cells] {
            assert_eq!(call(number).answer::<S>(s), Made { refusal, screen: s });
        }
    }

    /// The same of the calls with a separation.
    fn check_separated_calls<S: Subject>(self, separation: u32, refusal: u32) {
        let (s, inks) = (self.screen, [51, 102, 204]);
        assert_eq!(S::counts_of(s, separation, inks), Counts { refusal, of: [0; 8] });
        let x = self.either(65_535, 65_536);
        assert_eq!(S::cell_at(s, separation, x, 0, inks), Cell { refusal, colorant: 0 });
        let window = Window { x, y: 0, columns: 1, rows: 1 };
        let refused = Rendering { refusal, tallies: [0; 8] };
        let input = self.either(&inks[..], &inks[..2]);
        let mut brick = vec![0; 70];
        cavzemil_plain::fill_brick(record([s.a, s.b, s.n, s.k, s.g]), &mut brick);
        let mut out = vec![200; self.either(1, 2)];
        assert_eq!(S::render(s, separation, window, input, &mut out), refused);
        let brick = self.either(&brick[..], &brick[..69]);
        assert_eq!(S::render_brick(s, separation, window, input, brick, &mut out), refused);
        assert!(out.iter().all(|cell| *cell == 200));
        let values = self.either(vec![1.0; 765], vec![f64::NAN; 764]);
        let sets = S::predict_cellular(s, separation, inks, &values);
        assert_eq!((sets.refusal, sets.set, sets.xyz.map(f64::to_bits)), (refusal, 0, [0; 3]));
        let colour = S::predict(s, separation, inks, &values[..self.either(24, 23)]);
        assert_eq!((colour.refusal, colour.colorant, colour.xyz.map(f64::to_bits)), (refusal, 0, [0; 3]));
    }
}

/// Rule 11.2: in every call 15 comes after 1 to 4 and after 100, and before all other refusals.
pub fn false_records_are_refused_by_every_call<S: Subject>() {
    for screen in other_records(record([4, 7, 70, 2, 5])) {
        for (k, refusal) in [(2, 15), (17, 3)] {
            for good in [true, false] {
                let refused = Refused { screen: Screen { k, ..screen }, good };
                refused.check_calls::<S>(refusal);
                refused.check_separated_calls::<S>(DEMICHEL, refusal);
                refused.check_separated_calls::<S>(KUEPPERS, refusal);
                refused.check_separated_calls::<S>(2, 100);
            }
        }
    }
}
