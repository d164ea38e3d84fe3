//! Screens made and replaced: what a made screen stores (rule 17.2), replacements as worked out (rule 12.18),
//! which numbers are judged first (rule 17.3), what a refused replacement hands back (rule 17.4), and what
//! holds after any list of replacements (rules 17.5 and 17.6).

use crate::draw::{self, record};
use crate::Subject;
use cavzemil_plain::random::Random;
use cavzemil_plain::{Made, Screen};
use std::collections::BTreeSet;

/// A replacement of one number of a screen by another.
#[derive(Clone, Copy, Debug)]
pub enum Replacement {
    Offset(u32),
    Subscreens(u32),
    Cells(u32),
}

impl Replacement {
    /// A replacement by a number at or beside one of a screen's limits, or by any.
    pub fn draw(random: &mut Random, s: Screen) -> Replacement {
        let any = random.bits() as u32;
        match random.between(0, 2) {
            0 => Replacement::Offset(random.one_of(&[0, 1, s.n.saturating_sub(1), s.n, any % 4096, any])),
            1 => Replacement::Subscreens(random.one_of(&[0, 1, 16, 17, s.n, 1 + any % 16, any])),
            _ => {
                let limits = [0, 1, s.k.saturating_sub(1), s.k, s.g, s.g.saturating_add(1), 4096, 4097, any];
                let (limit, drawn) = (random.one_of(&limits), draw::cell_count(random, s.a.clamp(1, 64)));
                Replacement::Cells(random.one_of(&[limit, drawn]))
            }
        }
    }

    /// What the call answers for a screen.
    pub fn answer<S: Subject>(self, s: Screen) -> Made {
        match self {
            Replacement::Offset(g) => S::replace_offset(s, g),
            Replacement::Subscreens(k) => S::replace_subscreens(s, k),
            Replacement::Cells(n) => S::replace_cells(s, n),
        }
    }

    /// The screen with this one number replaced and the other seven left.
    fn put(self, s: Screen) -> Screen {
        match self {
            Replacement::Offset(g) => Screen { g, ..s },
            Replacement::Subscreens(k) => Screen { k, ..s },
            Replacement::Cells(n) => Screen { n, ..s },
        }
    }

    /// The refusal of the new numbers, by 1 to 4 alone.
    fn refusal_of_new<S: Subject>(self, s: Screen) -> u32 {
        let Screen { a, b, n, k, g, .. } = self.put(s);
        S::make_screen(a, b, n, k, g).refusal
    }

    /// Replaces a number of an admitted screen, fails unless rules 17.3 to 17.6 hold, and hands on what was
    /// handed back.
    fn check<S: Subject>(self, s: Screen) -> Made {
        let answer = self.answer::<S>(s);
        assert_eq!(answer.refusal, self.refusal_of_new::<S>(s), "{self:?} in {s:?}");
        let kept = if answer.refusal == 0 { with_stored_of(self.put(s), answer.screen) } else { s };
        assert_eq!(answer.screen, kept, "{self:?} in {s:?}");
        check_true(answer.screen);
        answer
    }
}

/// A screen with the stored numbers of another.
pub fn with_stored_of(s: Screen, Screen { columns, rows, shift, .. }: Screen) -> Screen {
    Screen { columns, rows, shift, ..s }
}

/// The columns, the rows and every shift that fits, by trying all numbers (rules 3.1 to 3.3).
fn tried_out(a: u32, b: u32, n: u32) -> (u32, u32, Vec<u32>) {
    let divides_both = |rows: &u32| a.is_multiple_of(*rows) && n.is_multiple_of(*rows);
    let rows = (1..=a).rev().find(divides_both).expect("1 divides both");
    let columns = n / rows;
    let shifts = (0..columns).filter(|shift| (a * shift + b * rows).is_multiple_of(n)).collect();
    (columns, rows, shifts)
}

/// The stored numbers are those that are found by trying, and no second shift is (rule 17.1).
fn check_true(s: Screen) {
    assert_eq!((s.columns, s.rows, vec![s.shift]), tried_out(s.a, s.b, s.n), "{s:?}");
}

/// Rule 17.2: every admitted slope with cell counts of all sorts.
pub fn made_screens_store_their_brick<S: Subject>() {
    let mut random = Random::new(6);
    let slopes = (2..=64).flat_map(|b| (1..b).map(move |a| (a, b)));
    for (a, b) in slopes.filter(|(a, b)| S::make_screen(*a, *b, 1, 1, 0).refusal == 0) {
        let any = random.between(1, 4096);
        for n in [1, 2, 7, a, b, 64, 70, 105, 6 * a, 1023, 2048, 4096 / a * a, 4095, 4096, any] {
            let made = S::make_screen(a, b, n, 1, n - 1);
            let numbers = Screen { a, b, n, k: 1, g: n - 1, ..Screen::default() };
            assert_eq!(made, Made { refusal: 0, screen: with_stored_of(numbers, made.screen) });
            check_true(made.screen);
        }
    }
}

/// Rules 11.5 to 11.8 and 17.2.
pub fn refused_screens_are_made_of_zeros<S: Subject>() {
    let zeros = |refusal| Made { refusal, screen: Screen::default() };
    assert_eq!(S::make_screen(4, 8, 70, 1, 0), zeros(1));
    assert_eq!(S::make_screen(4, 7, 0, 1, 0), zeros(2));
    assert_eq!(S::make_screen(4, 7, 5, 6, 0), zeros(3));
    assert_eq!(S::make_screen(4, 7, 70, 1, 70), zeros(4));
    assert_eq!(S::make_screen(4, 7, 70, 17, 70), zeros(3));
}

/// Rule 12.18.
pub fn numbers_are_replaced_as_worked_out<S: Subject>() {
    let made = Screen { a: 4, b: 7, n: 105, k: 2, g: 40, columns: 105, rows: 1, shift: 77 };
    assert_eq!(S::make_screen(4, 7, 105, 2, 40), Made { refusal: 0, screen: made });
    let replaced = Screen { n: 70, columns: 35, rows: 2, shift: 14, ..made };
    assert_eq!(S::replace_cells(made, 70), Made { refusal: 0, screen: replaced });
    let refused = |refusal| Made { refusal, screen: replaced };
    assert_eq!(S::replace_cells(replaced, 1), refused(3));
    assert_eq!(S::replace_cells(replaced, 40), refused(4));
    assert_eq!(S::replace_offset(replaced, 70), refused(4));
    assert_eq!(S::replace_subscreens(replaced, 17), refused(3));
}

/// Rules 17.3 and 17.4: a screen that is refused is handed back with its own refusal, whatever the new numbers
/// would be refused by, and also where these would be admitted.
pub fn screens_that_are_handed_in_are_judged_first<S: Subject>() {
    let refused = [
        (1, record([4, 8, 70, 2, 5])),
        (2, record([4, 7, 0, 2, 5])),
        (2, record([4, 7, 4097, 2, 5])),
        (3, record([4, 7, 70, 17, 5])),
        (3, record([4, 7, 70, 0, 70])),
        (4, record([4, 7, 70, 2, 70])),
        (15, Screen { shift: 21, ..record([4, 7, 70, 2, 5]) }),
        (15, Screen { n: 105, ..record([4, 7, 70, 2, 5]) }),
    ];
    let offsets = [0, 5, 4096].map(Replacement::Offset);
    let subscreens = [0, 2, 17].map(Replacement::Subscreens);
    let cells = [0, 1, 5, 70, 100].map(Replacement::Cells);
    let mut pairs = BTreeSet::new();
    for (refusal, screen) in refused {
        for replacement in offsets.into_iter().chain(subscreens).chain(cells) {
            assert_eq!(
                replacement.answer::<S>(screen),
                Made { refusal, screen },
                "{replacement:?} in {screen:?}"
            );
            pairs.insert((refusal, replacement.refusal_of_new::<S>(screen)));
        }
    }
    let mut expected = BTreeSet::from([(1, 1)]);
    for refusal in [2, 3, 4, 15] {
        expected.extend([0, 2, 3, 4].map(|of_new| (refusal, of_new)));
    }
    assert_eq!(pairs, expected, "pairs of refusals, of the screen and of the new numbers");
}

/// Rules 17.4 to 17.6, on lists of no replacement, of one and of many, by admitted screens of all sorts.
pub fn lists_of_replacements_keep_records_true<S: Subject>() {
    let mut random = Random::new(66);
    let (mut served, mut refused) = (0, 0);
    for _ in 0..3_000 {
        let Screen { a, b, n, k, g, .. } = draw::screen(&mut random);
        let mut screen = S::make_screen(a, b, n, k, g).screen;
        check_true(screen);
        let any = random.between(2, 30);
        for _ in 0..random.one_of(&[0, 1, 2, any]) {
            let answer = Replacement::draw(&mut random, screen).check::<S>(screen);
            *if answer.refusal == 0 { &mut served } else { &mut refused } += 1;
            screen = answer.screen;
        }
    }
    assert!(served > 3_000 && refused > 3_000, "{served} replacements were served and {refused} refused");
}
