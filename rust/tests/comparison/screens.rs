//! Places, brick sizes and brick buffers (rules 2.4, 3.5 and 3.7), and what a screen stores (rule 17.1).

use crate::case::{compare, differing, screen_words, smaller_numbers, smaller_screens, Case, Mismatch};
use crate::choose;
use crate::guarded::Guarded;
use crate::subject::Compiled;
use cavzemil_plain::random::Random;
use cavzemil_plain::Screen;
use cavzemil_testing::{draw, Subject};

/// A call of phase_at.
#[derive(Clone)]
struct PlaceCase {
    screen: Screen,
    x: u32,
    y: u32,
}

impl Case for PlaceCase {
    fn words(&self) -> String {
        format!("phase_at of ({}, {}), {}", self.x, self.y, screen_words(self.screen))
    }

    fn mismatch(&self) -> Option<Mismatch> {
        differing(
            cavzemil_plain::phase_at(self.screen, self.x, self.y),
            Compiled::phase_at(self.screen, self.x, self.y),
        )
    }

    fn smaller(&self) -> Vec<PlaceCase> {
        let screens = smaller_screens(self.screen).into_iter();
        let mut cases: Vec<PlaceCase> = screens.map(|screen| PlaceCase { screen, ..self.clone() }).collect();
        cases.extend(smaller_numbers(self.x).map(|x| PlaceCase { x, ..self.clone() }));
        cases.extend(smaller_numbers(self.y).map(|y| PlaceCase { y, ..self.clone() }));
        cases
    }
}

/// A call of brick_of, and one of fill_brick with so many places.
#[derive(Clone)]
struct BrickCase {
    screen: Screen,
    places: u32,
}

impl Case for BrickCase {
    fn words(&self) -> String {
        format!("brick_of and fill_brick with {} places, {}", self.places, screen_words(self.screen))
    }

    fn mismatch(&self) -> Option<Mismatch> {
        let before: Vec<u16> = (0..self.places).map(|place| 60_000 + (place % 999) as u16).collect();
        let mut expected = Guarded::new(&before, 54_321);
        let mut found = expected.clone();
        let plain = cavzemil_plain::fill_brick(self.screen, expected.lent_mut());
        let compiled = Compiled::fill_brick(self.screen, found.lent_mut());
        differing(cavzemil_plain::brick_of(self.screen), Compiled::brick_of(self.screen))
            .or_else(|| differing(plain, compiled))
            .or_else(|| expected.mismatch(&found, "brick buffer"))
    }

    fn smaller(&self) -> Vec<BrickCase> {
        let screens = smaller_screens(self.screen).into_iter();
        let mut cases: Vec<BrickCase> = screens.map(|screen| BrickCase { screen, ..self.clone() }).collect();
        cases.extend(smaller_numbers(self.places).map(|places| BrickCase { places, ..self.clone() }));
        cases
    }
}

/// Places at and beyond the sheet's edges, by screens at and beyond their limits.
#[test]
fn limits_of_places() {
    let edges = [0, 1, 65_534, 65_535, 65_536, 65_537, u32::MAX - 1, u32::MAX];
    for screen in choose::limit_screens() {
        for x in edges {
            for y in edges {
                compare(&PlaceCase { screen, x, y });
            }
        }
    }
}

/// Any places by any screens.
#[test]
fn any_places() {
    let mut random = Random::new(11);
    for _ in 0..1_000_000 {
        let screen = choose::screen(&mut random);
        let (x, y) = (choose::coordinate(&mut random), choose::coordinate(&mut random));
        compare(&PlaceCase { screen, x, y });
    }
}

/// Brick buffers about N places long, by screens at and beyond their limits.
#[test]
fn limits_of_bricks() {
    for screen in choose::limit_screens() {
        let n = screen.n.min(5000);
        for places in [0, n.saturating_sub(1), n, n + 1, 2 * n + 3] {
            compare(&BrickCase { screen, places });
        }
    }
}

/// Brick buffers of any length by any screens.
#[test]
fn any_bricks() {
    let mut random = Random::new(12);
    for _ in 0..60_000 {
        let screen = choose::screen(&mut random);
        let any = random.between(0, 5000);
        let n = screen.n.min(5000);
        let places = random.one_of(&[n, n, n, n.saturating_sub(1), n + 1, any]);
        compare(&BrickCase { screen, places });
    }
}

/// Every slope, admitted or not.
#[test]
fn all_slopes_with_few_cells() {
    let mut random = Random::new(13);
    for b in 0..=66 {
        for a in 0..=66 {
            let n = random.between(1, 70);
            let g = random.between(0, n - 1);
            let screen = draw::record([a, b, n, 1, g]);
            compare(&BrickCase { screen, places: n + 2 });
        }
    }
}

/// Every cell count, admitted or not.
#[test]
fn all_cell_counts() {
    let mut random = Random::new(14);
    for n in 0..=4100 {
        let (a, b) = draw::slope(&mut random);
        let screen = draw::record([a, b, n, 1, 0]);
        compare(&BrickCase { screen, places: n + 2 });
    }
}

/// A screen with another number in one of the places columns, rows and shift.
fn with_stored(s: Screen, place: u32, number: u32) -> Screen {
    match place {
        0 => Screen { columns: number, ..s },
        1 => Screen { rows: number, ..s },
        _ => Screen { shift: number, ..s },
    }
}

/// Each stored number by itself: every value to beyond N, and each of its bits turned over.
#[test]
fn every_stored_number() {
    let screens =
        [[4, 7, 70, 2, 5], [6, 7, 12, 2, 11], [1, 2, 1, 1, 0], [63, 64, 63, 9, 0], [8, 9, 4096, 16, 4]];
    for screen in screens.map(draw::record) {
        let stored = [screen.columns, screen.rows, screen.shift];
        for (place, number) in (0..).zip(stored) {
            for other in (0..screen.n + 9).chain((0..32).map(|bit| number ^ 1 << bit)) {
                let screen = with_stored(screen, place, other);
                compare(&PlaceCase { screen, x: 9, y: 4 });
                compare(&BrickCase { screen, places: screen.n });
            }
        }
    }
}
