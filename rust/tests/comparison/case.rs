//! A case: one call put to both implementations, that can tell itself and shrink.

use cavzemil_plain::{Inks, Screen, Window};
use cavzemil_testing::draw::record;
use std::fmt::Debug;

/// What both implementations answered where they differ.
pub struct Mismatch {
    pub expected: String,
    pub found: String,
}

/// One call with all that it is handed.
pub trait Case: Clone {
    /// The call in plain words.
    fn words(&self) -> String;

    /// The first difference between the plain and the compiled implementation's answers and memories.
    fn mismatch(&self) -> Option<Mismatch>;

    /// Cases a little smaller than this one, the boldest first.
    fn smaller(&self) -> Vec<Self>;
}

/// Puts a case to both implementations and fails with the smallest case found where they differ.
pub fn compare(case: &impl Case) {
    if case.mismatch().is_some() {
        let smallest = shrink(case.clone());
        let Mismatch { expected, found } = smallest.mismatch().expect("a shrunk case still differs");
        panic!("\n{}\n  expected: {expected}\n  found:    {found}\n", smallest.words());
    }
}

/// Takes the first smaller case that still differs, as long as there is one and patience lasts.
fn shrink<C: Case>(mut case: C) -> C {
    let mut patience = 20_000;
    'smaller: loop {
        for candidate in case.smaller() {
            if patience == 0 {
                return case;
            }
            patience -= 1;
            if candidate.mismatch().is_some() {
                case = candidate;
                continue 'smaller;
            }
        }
        return case;
    }
}

/// The mismatch of two answers, if they differ.
pub fn differing<T: Debug + PartialEq>(expected: T, found: T) -> Option<Mismatch> {
    let words = || Mismatch { expected: format!("{expected:?}"), found: format!("{found:?}") };
    (expected != found).then(words)
}

/// Numbers smaller than this one: 0, its half, and the one before it.
pub fn smaller_numbers(number: u32) -> impl Iterator<Item = u32> {
    let choices = [0, number / 2, number.saturating_sub(1)];
    choices.into_iter().filter(move |choice| *choice < number)
}

/// Screens smaller than this one: in one number, or with the simplest slope, each with the brick that this
/// gives and with the stored numbers as they are; or in one of these.
pub fn smaller_screens(s: Screen) -> Vec<Screen> {
    let mut screens = Vec::new();
    if s.b > 2 {
        screens.push(Screen { a: 1, b: 2, ..s });
    }
    screens.extend(smaller_numbers(s.n).map(|n| Screen { n, ..s }));
    screens.extend(smaller_numbers(s.g).map(|g| Screen { g, ..s }));
    screens.extend(smaller_numbers(s.k).map(|k| Screen { k, ..s }));
    screens.extend(smaller_numbers(s.a).map(|a| Screen { a, ..s }));
    screens.extend(smaller_numbers(s.b).map(|b| Screen { b, ..s }));
    let mut screens: Vec<Screen> = screens.into_iter().flat_map(|s| [mended(s), s]).collect();
    screens.extend(smaller_numbers(s.columns).map(|columns| Screen { columns, ..s }));
    screens.extend(smaller_numbers(s.rows).map(|rows| Screen { rows, ..s }));
    screens.extend(smaller_numbers(s.shift).map(|shift| Screen { shift, ..s }));
    screens
}

/// The screen with the brick that its numbers give, whatever it stores.
pub fn mended(s: Screen) -> Screen {
    record([s.a, s.b, s.n, s.k, s.g])
}

/// Ink values of which one is smaller.
pub fn smaller_inks(inks: Inks) -> Vec<Inks> {
    let mut smaller = Vec::new();
    for ink in 0..3 {
        for value in smaller_numbers(u32::from(inks[ink])) {
            let mut choice = inks;
            choice[ink] = value as u8;
            smaller.push(choice);
        }
    }
    smaller
}

/// Windows smaller than this one: of fewer columns or rows, or nearer to the sheet's corner.
pub fn smaller_windows(w: Window) -> Vec<Window> {
    let mut windows: Vec<Window> =
        smaller_numbers(w.columns).map(|columns| Window { columns, ..w }).collect();
    windows.extend(smaller_numbers(w.rows).map(|rows| Window { rows, ..w }));
    windows.extend(smaller_numbers(w.x).map(|x| Window { x, ..w }));
    windows.extend(smaller_numbers(w.y).map(|y| Window { y, ..w }));
    windows
}

/// A screen in plain words.
pub fn screen_words(s: Screen) -> String {
    let stored = format!("storing {}, {}, {}", s.columns, s.rows, s.shift);
    format!("screen {}/{}, N = {}, K = {}, g = {}, {stored}", s.a, s.b, s.n, s.k, s.g)
}

/// A separation number in plain words.
pub fn separation_words(separation: u32) -> String {
    match separation {
        0 => "Demichel".into(),
        1 => "Kueppers".into(),
        other => format!("separation {other}"),
    }
}
