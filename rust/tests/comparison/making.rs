//! Screens that are made, and screens of which a number is replaced (rules 17.1 to 17.6).

use crate::case::{compare, differing, screen_words, smaller_numbers, smaller_screens, Case, Mismatch};
use crate::choose;
use crate::subject::Compiled;
use cavzemil_plain::random::Random;
use cavzemil_plain::{Made, Screen};
use cavzemil_testing::false_records::other_records;
use cavzemil_testing::making::Replacement;
use cavzemil_testing::{draw, Plain, Subject};

/// A call of make_screen with a, b, N, K and g.
#[derive(Clone)]
struct MakeCase {
    numbers: [u32; 5],
}

impl Case for MakeCase {
    fn words(&self) -> String {
        format!("make_screen of a, b, N, K, g = {:?}", self.numbers)
    }

    fn mismatch(&self) -> Option<Mismatch> {
        let [a, b, n, k, g] = self.numbers;
        differing(cavzemil_plain::make_screen(a, b, n, k, g), Compiled::make_screen(a, b, n, k, g))
    }

    fn smaller(&self) -> Vec<MakeCase> {
        let mut cases = Vec::new();
        for place in 0..5 {
            for number in smaller_numbers(self.numbers[place]) {
                let mut case = self.clone();
                case.numbers[place] = number;
                cases.push(case);
            }
        }
        cases
    }
}

/// Replacements one after the other, the first of a screen, each next of what the one before handed back.
#[derive(Clone)]
struct ReplaceCase {
    screen: Screen,
    replacements: Vec<Replacement>,
}

/// The answers of the plain and of the compiled implementation.
fn answers(replacement: Replacement, s: Screen) -> (Made, Made) {
    (replacement.answer::<Plain>(s), replacement.answer::<Compiled>(s))
}

/// Replacements by a smaller number.
fn smaller_replacements(replacement: Replacement) -> Vec<Replacement> {
    match replacement {
        Replacement::Offset(g) => smaller_numbers(g).map(Replacement::Offset).collect(),
        Replacement::Subscreens(k) => smaller_numbers(k).map(Replacement::Subscreens).collect(),
        Replacement::Cells(n) => smaller_numbers(n).map(Replacement::Cells).collect(),
    }
}

impl ReplaceCase {
    /// Cases with one replacement less.
    fn shorter(&self) -> Vec<ReplaceCase> {
        let without = |place| {
            let mut case = self.clone();
            case.replacements.remove(place);
            case
        };
        (0..self.replacements.len()).map(without).collect()
    }
}

impl Case for ReplaceCase {
    fn words(&self) -> String {
        format!("replacing {:?} of {}", self.replacements, screen_words(self.screen))
    }

    fn mismatch(&self) -> Option<Mismatch> {
        let mut screen = self.screen;
        for replacement in &self.replacements {
            let (plain, compiled) = answers(*replacement, screen);
            if let Some(mismatch) = differing(plain, compiled) {
                return Some(mismatch);
            }
            screen = plain.screen;
        }
        None
    }

    fn smaller(&self) -> Vec<ReplaceCase> {
        let mut cases = self.shorter();
        let screens = smaller_screens(self.screen).into_iter();
        cases.extend(screens.map(|screen| ReplaceCase { screen, ..self.clone() }));
        for (place, replacement) in self.replacements.iter().enumerate() {
            for smaller in smaller_replacements(*replacement) {
                let mut case = self.clone();
                case.replacements[place] = smaller;
                cases.push(case);
            }
        }
        cases
    }
}

/// Compares one replacement.
fn compare_one(screen: Screen, replacement: Replacement) {
    compare(&ReplaceCase { screen, replacements: vec![replacement] });
}

/// Compares each replacement by each of some numbers.
fn compare_all(screen: Screen, numbers: impl IntoIterator<Item = u32>) {
    for number in numbers {
        compare_one(screen, Replacement::Offset(number));
        compare_one(screen, Replacement::Subscreens(number));
        compare_one(screen, Replacement::Cells(number));
    }
}

/// Numbers at each limit, from both sides, in all combinations.
#[test]
fn limits_of_made_screens() {
    let most = u32::MAX;
    let slopes =
        [(4, 7), (1, 2), (63, 64), (61, 64), (0, 1), (7, 7), (7, 4), (4, 8), (64, 65), (1, 65), (most, most)];
    for (a, b) in slopes {
        for n in [0, 1, 2, 15, 16, 17, 70, 4095, 4096, 4097, 65_536, 65_606, most] {
            for k in [0, 1, 2, 15, 16, 17, n.saturating_sub(1), n, n.saturating_add(1), 65_537, most] {
                for g in [0, 1, n.saturating_sub(1), n, n.saturating_add(1), 65_536, most] {
                    compare(&MakeCase { numbers: [a, b, n, k, g] });
                }
            }
        }
    }
}

/// Every slope, admitted or not, with cell counts of all sorts.
#[test]
fn every_slope() {
    let mut random = Random::new(101);
    for (a, b) in (0..=66).flat_map(|b| (0..=66).map(move |a| (a, b))) {
        let any = random.between(1, 4096);
        for n in [1, 2, 3, 12, a.max(1), b.max(1), 70, 105, 6 * a + 1, 12 * a + 12, 720, 4095, 4096, any] {
            compare(&MakeCase { numbers: [a, b, n, 1, n - 1] });
        }
    }
}

/// Every cell count, admitted or not, by drawn slopes.
#[test]
fn every_cell_count() {
    let mut random = Random::new(102);
    for n in 0..=4100 {
        for _ in 0..8 {
            let (a, b) = draw::slope(&mut random);
            compare(&MakeCase { numbers: [a, b, n, 1, 0] });
        }
    }
}

/// Screens at their limits and beyond, and false records, replaced by numbers at limits and beyond.
#[test]
fn limits_of_replacements() {
    let numbers =
        [0, 1, 2, 3, 4, 5, 15, 16, 17, 69, 70, 71, 104, 105, 4095, 4096, 4097, 65_536, 65_606, u32::MAX];
    for screen in choose::limit_screens() {
        compare_all(screen, numbers);
    }
}

/// Every number to beyond all limits, by some screens and their false records.
#[test]
fn every_number_replaced() {
    for numbers in [[4, 7, 105, 2, 40], [1, 2, 1, 1, 0], [5, 8, 16, 16, 15], [63, 64, 4096, 3, 2000]] {
        let screen = draw::record(numbers);
        compare_all(screen, 0..=4100);
        for other in other_records(screen) {
            compare_all(other, (0..=20).chain(4_090..=4_100));
        }
    }
}

/// One replacement of any sort in any screens, refused ones and false records among them.
#[test]
fn any_replacements() {
    let mut random = Random::new(103);
    for _ in 0..200_000 {
        let screen = choose::screen(&mut random);
        compare_one(screen, Replacement::draw(&mut random, screen));
    }
}

/// Lists of replacements of made screens, of no replacement and of many, refused ones among them.
#[test]
fn any_lists_of_replacements() {
    let mut random = Random::new(104);
    for _ in 0..10_000 {
        let first = draw::screen(&mut random);
        let mut replacements = Vec::new();
        let mut screen = first;
        let any = random.between(2, 40);
        for _ in 0..random.one_of(&[0, 1, 2, any]) {
            let replacement = Replacement::draw(&mut random, screen);
            screen = answers(replacement, screen).0.screen;
            replacements.push(replacement);
        }
        compare(&MakeCase { numbers: [first.a, first.b, first.n, first.k, first.g] });
        compare(&ReplaceCase { screen: first, replacements });
    }
}
