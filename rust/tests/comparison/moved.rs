//! Screens as they are seen from another corner (rules 19.1 and 19.2).

use crate::case::{compare, differing, screen_words, smaller_screens, Case, Mismatch};
use crate::choose;
use crate::subject::Compiled;
use cavzemil_plain::random::Random;
use cavzemil_plain::Screen;
use cavzemil_testing::false_records::other_records;
use cavzemil_testing::moved::corner;
use cavzemil_testing::{draw, Subject};

/// A call of moved.
#[derive(Clone)]
struct MoveCase {
    screen: Screen,
    x: u64,
    y: u64,
}

/// Columns or rows smaller than this one.
fn smaller_corners(number: u64) -> impl Iterator<Item = u64> {
    let choices = [0, number / 2, number.saturating_sub(1)];
    choices.into_iter().filter(move |choice| *choice < number)
}

impl Case for MoveCase {
    fn words(&self) -> String {
        format!("moved to ({}, {}), {}", self.x, self.y, screen_words(self.screen))
    }

    fn mismatch(&self) -> Option<Mismatch> {
        let MoveCase { screen, x, y } = *self;
        differing(cavzemil_plain::moved(screen, x, y), Compiled::moved(screen, x, y))
    }

    fn smaller(&self) -> Vec<MoveCase> {
        let screens = smaller_screens(self.screen).into_iter();
        let mut cases: Vec<MoveCase> = screens.map(|screen| MoveCase { screen, ..self.clone() }).collect();
        cases.extend(smaller_corners(self.x).map(|x| MoveCase { x, ..self.clone() }));
        cases.extend(smaller_corners(self.y).map(|y| MoveCase { y, ..self.clone() }));
        cases
    }
}

/// Numbers at and beside those at which products of 32 and of 64 bits run over, and the sheet's.
fn edges() -> Vec<u64> {
    let powers = [16, 31, 32, 57, 58, 62, 63].map(|bits| 1 << bits);
    let beside = powers.into_iter().flat_map(|power| [power - 1, power, power + 1]);
    beside.chain([0, 1, 104, 105, 4_096, u64::MAX / 64, u64::MAX / 7, u64::MAX - 1, u64::MAX]).collect()
}

/// Corners at their limits by screens at their limits and beyond, false records among them.
#[test]
fn limits_of_corners() {
    let edges = edges();
    for screen in choose::limit_screens() {
        for (x, y) in edges.iter().flat_map(|x| edges.iter().map(move |y| (*x, *y))) {
            compare(&MoveCase { screen, x, y });
        }
    }
}

/// Any corners by any screens, refused ones and false records among them.
#[test]
fn any_corners() {
    let mut random = Random::new(111);
    for _ in 0..1_000_000 {
        let screen = choose::screen(&mut random);
        let (x, y) = (corner(&mut random), corner(&mut random));
        compare(&MoveCase { screen, x, y });
    }
}

/// Every cell count, admitted or not, and every offset of some screens; with false records of each.
#[test]
fn every_cell_count_and_offset() {
    let mut random = Random::new(112);
    for n in 0..=4100u32 {
        let (a, b) = draw::slope(&mut random);
        let offsets = [n.saturating_sub(1), n / 2, n];
        for screen in offsets.map(|g| draw::record([a, b, n, 1, g])) {
            for screen in other_records(screen).into_iter().chain([screen]) {
                let (x, y) = (corner(&mut random), corner(&mut random));
                compare(&MoveCase { screen, x, y });
            }
        }
    }
    for (g, x) in (0..72).flat_map(|g| (0..72).map(move |x| (g, x))) {
        compare(&MoveCase { screen: draw::record([4, 7, 70, 2, g]), x, y: 3 * x });
    }
}
