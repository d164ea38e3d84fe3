//! Counts and lone cells (rules 5.5 and 7.8).

use crate::case::{compare, differing, screen_words, separation_words, Case, Mismatch};
use crate::case::{smaller_inks, smaller_numbers, smaller_screens};
use crate::choose;
use crate::subject::Compiled;
use cavzemil_plain::random::Random;
use cavzemil_plain::{Inks, Screen};
use cavzemil_testing::{draw, Subject};

/// A call of counts_of and one of cell_at.
#[derive(Clone)]
struct CellCase {
    screen: Screen,
    separation: u32,
    x: u32,
    y: u32,
    inks: Inks,
}

impl Case for CellCase {
    fn words(&self) -> String {
        let separation = separation_words(self.separation);
        let place = format!("cell_at of ({}, {})", self.x, self.y);
        format!("counts_of and {place}, {}, {separation} {:?}", screen_words(self.screen), self.inks)
    }

    fn mismatch(&self) -> Option<Mismatch> {
        let CellCase { screen, separation, x, y, inks } = *self;
        differing(
            cavzemil_plain::counts_of(screen, separation, inks),
            Compiled::counts_of(screen, separation, inks),
        )
        .or_else(|| {
            differing(
                cavzemil_plain::cell_at(screen, separation, x, y, inks),
                Compiled::cell_at(screen, separation, x, y, inks),
            )
        })
    }

    fn smaller(&self) -> Vec<CellCase> {
        let screens = smaller_screens(self.screen).into_iter();
        let mut cases: Vec<CellCase> = screens.map(|screen| CellCase { screen, ..self.clone() }).collect();
        cases.extend(smaller_numbers(self.x).map(|x| CellCase { x, ..self.clone() }));
        cases.extend(smaller_numbers(self.y).map(|y| CellCase { y, ..self.clone() }));
        cases.extend(smaller_inks(self.inks).into_iter().map(|inks| CellCase { inks, ..self.clone() }));
        cases
    }
}

/// Places, screens and separations at and beyond their limits, several at once.
#[test]
fn limits_of_cells() {
    for screen in choose::limit_screens() {
        for separation in [0, 1, 2, 100, u32::MAX] {
            for x in [0, 65_535, 65_536, u32::MAX] {
                for y in [0, 65_535, 65_536, u32::MAX] {
                    compare(&CellCase { screen, separation, x, y, inks: [200, 100, 50] });
                }
            }
        }
    }
}

/// Any cells by any screens.
#[test]
fn any_cells() {
    let mut random = Random::new(21);
    for _ in 0..2_000_000 {
        compare(&CellCase {
            screen: choose::screen(&mut random),
            separation: choose::separation(&mut random),
            x: choose::coordinate(&mut random),
            y: choose::coordinate(&mut random),
            inks: draw::inks(&mut random),
        });
    }
}

/// Ink values in steps of 15, all combinations.
#[test]
fn inks_in_steps() {
    let screens = [[4, 7, 105, 2, 0], [3, 8, 4096, 16, 17], [5, 9, 15, 15, 14], [1, 2, 1, 1, 0]];
    for [a, b, n, k, g] in screens {
        let screen = draw::record([a, b, n, k, g]);
        for step in 0..18 * 18 * 18u32 {
            let inks = [step % 18, step / 18 % 18, step / 324].map(|value| (value * 15) as u8);
            for separation in [0, 1] {
                compare(&CellCase { screen, separation, x: step, y: 7 * step % 1000, inks });
            }
        }
    }
}
