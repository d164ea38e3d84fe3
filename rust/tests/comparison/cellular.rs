//! Cellular predictions, compared bit by bit (rules 16.1 to 16.8).
//!
//! Good and bad values at every place, in sets with weight and in sets without, alone and several at once;
//! zeros of both signs, subnormal numbers, values at and beside the limits, infinities and NaNs; lengths
//! about 765 and far from it; screens and separations that are refused, together with lengths and values that
//! are; counts of which many are equal, and one colorant in all cells; and runs of all these sorts by drawn
//! screens. The run is only read: it and its guards are compared after every call.

use crate::case::{compare, differing, screen_words, separation_words, Case, Mismatch};
use crate::case::{smaller_inks, smaller_numbers, smaller_screens};
use crate::choose;
use crate::guarded::Guarded;
use crate::subject::Compiled;
use crate::values::{bad_value, simpler_values, value, Bits, BAD_VALUES, GOOD_VALUES};
use cavzemil_plain::random::Random;
use cavzemil_plain::{colorant_order, colorant_sets, counts_of, set_weights, Inks, Screen};
use cavzemil_testing::{draw, Subject};

/// The values of a run: X, Y, Z of each of the 255 sets (rule 16.2).
const VALUES: usize = 765;

/// A screen that is admitted; with the ink values below it gives weight to the sets 8 and 139 (rule 12.16).
const SCREEN: Screen = Screen { a: 4, b: 7, n: 105, k: 2, g: 0, columns: 105, rows: 1, shift: 77 };

/// The ink values of rule 12.16.
const INKS: Inks = [128, 128, 0];

/// Lengths of runs: about the one that is needed, about others that may be mistaken for it, and such as are
/// the same in 8 or in 16 bits.
const LENGTHS: [usize; 20] =
    [0, 1, 3, 8, 23, 24, 25, 253, 255, 256, 762, 763, 764, 765, 766, 767, 768, 1021, 1530, 66_301];

/// A call of predict_cellular.
#[derive(Clone)]
struct CellularCase {
    screen: Screen,
    separation: u32,
    inks: Inks,
    primaries: Vec<f64>,
}

impl CellularCase {
    /// A call that is served: an admitted screen, and good values.
    fn served(random: &mut Random) -> CellularCase {
        CellularCase {
            screen: draw::screen(random),
            separation: random.between(0, 1),
            inks: draw::inks(random),
            primaries: good_run(random),
        }
    }

    /// The eight sets that the counts give, with their weights.
    fn weighed_sets(&self) -> [(usize, u32); 8] {
        let counts = counts_of(self.screen, self.separation, self.inks).of;
        let order = colorant_order(counts);
        let (sets, weights) = (colorant_sets(order), set_weights(counts, order));
        [0, 1, 2, 3, 4, 5, 6, 7].map(|place| (sets[place], weights[place]))
    }

    /// Cases with a shorter run.
    fn shorter(&self) -> Vec<CellularCase> {
        let lengths = smaller_numbers(self.primaries.len() as u32);
        lengths.map(|length| self.resized(length as usize)).collect()
    }

    /// The case with so many values; further ones are 5.
    fn resized(&self, length: usize) -> CellularCase {
        let mut case = self.clone();
        case.primaries.resize(length, 5.0);
        case
    }

    /// The case with a part of its run set to 0.
    fn blank(&self, start: usize, end: usize) -> CellularCase {
        let mut case = self.clone();
        case.primaries[start..end].fill(0.0);
        case
    }

    /// Cases with a part of the run set to 0, where it is not so already, the largest parts first.
    fn blanked(&self) -> Vec<CellularCase> {
        let mut cases = Vec::new();
        for size in [VALUES, 384, 96, 24, 6, 1] {
            for (part, values) in self.primaries.chunks(size).enumerate() {
                let start = part * size;
                let blank = values.iter().all(|value| value.to_bits() == 0);
                cases.extend((!blank).then(|| self.blank(start, start + values.len())));
            }
        }
        cases
    }

    /// Cases with one value simpler.
    fn simpler_values(&self) -> Vec<CellularCase> {
        let mut cases = Vec::new();
        for place in 0..self.primaries.len() {
            for value in simpler_values(self.primaries[place]) {
                let mut case = self.clone();
                case.primaries[place] = value;
                cases.push(case);
            }
        }
        cases
    }
}

impl Case for CellularCase {
    fn words(&self) -> String {
        let separation = separation_words(self.separation);
        let call = format!("predict_cellular, {}, {separation} {:?}", screen_words(self.screen), self.inks);
        let sets = self.primaries.chunks(3).zip(1..);
        let sets = sets.filter(|(xyz, _)| xyz.iter().any(|value| value.to_bits() != 0));
        let words: Vec<String> = sets.take(16).map(|(xyz, set)| format!("set {set}: {xyz:?}")).collect();
        let run = format!("{} values, +0 beside these sets (the first 16)", self.primaries.len());
        format!("{call}\n  {run}: {}", words.join(", "))
    }

    fn mismatch(&self) -> Option<Mismatch> {
        let CellularCase { screen, separation, inks, .. } = *self;
        let kept = Guarded::new(&self.primaries, 1e6);
        let lent = kept.clone();
        let plain = cavzemil_plain::predict_cellular(screen, separation, inks, kept.lent());
        let compiled = Compiled::predict_cellular(screen, separation, inks, lent.lent());
        differing(Bits::from(plain), Bits::from(compiled))
            .or_else(|| kept.map(f64::to_bits).mismatch(&lent.map(f64::to_bits), "primaries"))
    }

    fn smaller(&self) -> Vec<CellularCase> {
        let mut cases = self.shorter();
        if self.primaries.len() <= 2 * VALUES {
            cases.extend(self.blanked());
        }
        let screens = smaller_screens(self.screen).into_iter();
        cases.extend(screens.map(|screen| CellularCase { screen, ..self.clone() }));
        cases.extend(smaller_inks(self.inks).into_iter().map(|inks| CellularCase { inks, ..self.clone() }));
        if self.primaries.iter().filter(|value| value.to_bits() != 0).count() <= 24 {
            cases.extend(self.simpler_values());
        }
        cases
    }
}

/// A run of good values: of any sort, or all subnormal or next to it, a few units of the least number, zeros,
/// marked values, or whole numbers.
fn good_run(random: &mut Random) -> Vec<f64> {
    let sort = random.between(0, 7);
    let draw = |_| match sort {
        0 => f64::from_bits(random.bits() % (4 << 52)),
        1 => f64::from_bits(random.bits() % 5000),
        2 => random.one_of(&[0.0, -0.0]),
        3 => random.one_of(&GOOD_VALUES),
        4 => f64::from(random.between(0, 200)),
        _ => value(random),
    };
    (0..VALUES).map(draw).collect()
}

/// Puts bad values, or any bits, into a run: anywhere, and in sets that the counts give.
fn spoil(random: &mut Random, case: &mut CellularCase) {
    let given = case.weighed_sets();
    for _ in 0..random.between(1, 4) {
        let (any, (given, _)) = (random.between(1, 255) as usize, random.one_of(&given));
        let set = random.one_of(&[any, given]);
        case.primaries[3 * (set - 1) + random.between(0, 2) as usize] = bad_value(random);
    }
}

/// Good and bad values at every place, other bad ones before and after them, or none.
#[test]
fn limits_of_values() {
    for place in 0..VALUES {
        for value in GOOD_VALUES.into_iter().chain(BAD_VALUES) {
            for other in [None, Some(0), Some(3 * (128 - 1)), Some(VALUES - 1)] {
                let mut primaries = vec![50.5; VALUES];
                other.into_iter().for_each(|other: usize| primaries[other] = 200.5);
                primaries[place] = value;
                compare(&CellularCase { screen: SCREEN, separation: 0, inks: INKS, primaries });
            }
        }
    }
}

/// Each set as the lowest bad one, with and without bad ones above it, by drawn screens.
#[test]
fn every_set_as_the_lowest_bad_one() {
    let mut random = Random::new(91);
    for lowest in 1..=255 {
        for _ in 0..60 {
            let mut case = CellularCase::served(&mut random);
            for _ in 0..random.between(0, 3) {
                let above = random.between(lowest, 255) as usize;
                case.primaries[3 * above - 1] = random.one_of(&BAD_VALUES);
            }
            let place = 3 * (lowest as usize - 1) + random.between(0, 2) as usize;
            case.primaries[place] = random.one_of(&BAD_VALUES);
            compare(&case);
        }
    }
}

/// A bad value in each of the sets that the counts give, those with weight and the others, by drawn screens.
#[test]
fn bad_values_in_the_sets_of_the_counts() {
    let mut random = Random::new(92);
    let (mut with_weight, mut without) = (0, 0);
    for _ in 0..2_000 {
        let served = CellularCase::served(&mut random);
        for (set, weight) in served.weighed_sets() {
            let mut case = served.clone();
            case.primaries[3 * (set - 1) + random.between(0, 2) as usize] = random.one_of(&BAD_VALUES);
            compare(&case);
            *if weight > 0 { &mut with_weight } else { &mut without } += 1;
        }
    }
    assert!(with_weight > 1_000 && without > 1_000, "{with_weight} sets had weight, {without} had none");
}

/// Every combination of signs of zeros in the eight sets that the counts give; the sum is plus zero always.
#[test]
fn zeros_of_both_signs() {
    for inks in [INKS, [255, 255, 255], [0, 0, 0], [30, 60, 90], [90, 100, 120]] {
        let (screen, primaries) = (draw::record([4, 7, 4096, 2, 0]), vec![1.0; VALUES]);
        let ones = CellularCase { screen, separation: 0, inks, primaries };
        for signs in 0..256 {
            let mut case = ones.clone();
            for (place, (set, _)) in ones.weighed_sets().into_iter().enumerate() {
                let zero = if signs >> place & 1 == 1 { -0.0 } else { 0.0 };
                case.primaries[3 * (set - 1)..3 * set].fill(zero);
            }
            compare(&case);
        }
    }
}

/// Screens, separations, lengths and values beyond their limits, several at once.
#[test]
fn limits_of_screens_and_lengths() {
    for screen in choose::limit_screens() {
        for separation in [0, 1, 2, u32::MAX] {
            for length in LENGTHS {
                for value in [3.5, -1.0, f64::NAN] {
                    let primaries = vec![value; length];
                    compare(&CellularCase { screen, separation, inks: [1, 2, 3], primaries });
                }
            }
        }
    }
}

/// Every length to 1,600 on a screen that is admitted, of good values and of bad ones.
#[test]
fn lengths_of_runs() {
    for length in 0..=1_600 {
        for value in [3.5, 200.5] {
            let primaries = vec![value; length];
            compare(&CellularCase { screen: SCREEN, separation: 1, inks: INKS, primaries });
        }
    }
}

/// Few cells, or as many as may be, and ink values at the ends and about the middle: many counts are equal.
#[test]
fn equal_counts() {
    let mut random = Random::new(93);
    let values = [0, 1, 127, 128, 254, 255];
    let mut equal = 0;
    for n in (1..=40).chain([255, 256, 4095, 4096]) {
        for (c, m, y) in (0..216).map(|step| (values[step % 6], values[step / 6 % 6], values[step / 36])) {
            for separation in [0, 1] {
                let screen = draw::record([4, 7, n, 1, 0]);
                let primaries = good_run(&mut random);
                let case = CellularCase { screen, separation, inks: [c, m, y], primaries };
                compare(&case);
                let mut counts = counts_of(screen, separation, case.inks).of;
                counts.sort();
                equal += counts.windows(2).filter(|pair| pair[0] == pair[1] && pair[0] > 0).count();
            }
        }
    }
    assert!(equal > 10_000, "{equal} counts above 0 were equal to the next");
}

/// Any runs by any screens; each of the eight sets has weight in many of the calls.
#[test]
fn any_primaries() {
    let mut random = Random::new(94);
    let mut with_weight = [0; 8];
    for _ in 0..100_000 {
        let (screen, separation) = (choose::screen(&mut random), choose::separation(&mut random));
        let mut case = CellularCase { screen, separation, ..CellularCase::served(&mut random) };
        if random.once_in(6) {
            spoil(&mut random, &mut case);
        }
        if random.once_in(30) {
            case = case.resized(random.one_of(&LENGTHS));
        }
        compare(&case);
        let weights = case.weighed_sets().map(|(_, weight)| u32::from(weight > 0));
        weights.iter().zip(&mut with_weight).for_each(|(weight, sum)| *sum += weight);
    }
    assert!(with_weight.iter().all(|calls| *calls > 5_000), "sets with weight: {with_weight:?}");
}

/// One colorant in all cells, for every cell count.
#[test]
fn full_tones() {
    let mut random = Random::new(95);
    for n in 1..=4096 {
        let (a, b) = draw::slope(&mut random);
        let screen = draw::record([a, b, n, 1, 0]);
        let inks = [0; 3].map(|_: u8| random.one_of(&[0, 255]));
        compare(&CellularCase { screen, inks, ..CellularCase::served(&mut random) });
    }
}
