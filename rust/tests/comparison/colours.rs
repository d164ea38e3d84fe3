//! Predicted colours, compared bit by bit (rules 9.1 to 9.5).

use crate::case::{
    compare, differing, screen_words, separation_words, smaller_inks, smaller_screens, Case, Mismatch,
};
use crate::choose;
use crate::guarded::Guarded;
use crate::subject::Compiled;
use crate::values::{bad_value, simpler_values, value, Bits, BAD_VALUES, GOOD_VALUES};
use cavzemil_plain::random::Random;
use cavzemil_plain::{Inks, Screen};
use cavzemil_testing::{draw, Subject};

/// A call of predict.
#[derive(Clone)]
struct ColourCase {
    screen: Screen,
    separation: u32,
    inks: Inks,
    primaries: Vec<f64>,
}

impl Case for ColourCase {
    fn words(&self) -> String {
        let separation = separation_words(self.separation);
        let call = format!("predict, {}, {separation} {:?}", screen_words(self.screen), self.inks);
        format!("{call}\n  primaries {:?}", self.primaries)
    }

    fn mismatch(&self) -> Option<Mismatch> {
        let ColourCase { screen, separation, inks, .. } = *self;
        let kept = Guarded::new(&self.primaries, 1e6);
        let lent = kept.clone();
        let plain = cavzemil_plain::predict(screen, separation, inks, kept.lent());
        let compiled = Compiled::predict(screen, separation, inks, lent.lent());
        differing(Bits::from(plain), Bits::from(compiled))
            .or_else(|| kept.map(f64::to_bits).mismatch(&lent.map(f64::to_bits), "primaries"))
    }

    fn smaller(&self) -> Vec<ColourCase> {
        let screens = smaller_screens(self.screen).into_iter();
        let mut cases: Vec<ColourCase> =
            screens.map(|screen| ColourCase { screen, ..self.clone() }).collect();
        cases.extend(smaller_inks(self.inks).into_iter().map(|inks| ColourCase { inks, ..self.clone() }));
        for place in 0..self.primaries.len() {
            for value in simpler_values(self.primaries[place]) {
                let mut case = self.clone();
                case.primaries[place] = value;
                cases.push(case);
            }
        }
        cases
    }
}

/// Twenty-four values, seldom some bad ones or any bits among them.
fn primaries(random: &mut Random) -> Vec<f64> {
    let mut primaries: Vec<f64> = (0..24).map(|_| value(random)).collect();
    if random.once_in(6) {
        for _ in 0..random.between(1, 3) {
            let place = random.between(0, 23) as usize;
            primaries[place] = bad_value(random);
        }
    }
    primaries
}

/// Good and bad values at every place, other bad ones before and after them.
#[test]
fn limits_of_primaries() {
    let screen = draw::record([4, 7, 105, 2, 0]);
    for place in 0..24 {
        for value in GOOD_VALUES.into_iter().chain(BAD_VALUES) {
            for other in [0, 12, 23] {
                let mut primaries = vec![50.5; 24];
                primaries[other] = 200.5;
                primaries[place] = value;
                compare(&ColourCase { screen, separation: 0, inks: [128, 128, 0], primaries });
            }
        }
    }
}

/// Every combination of signs of eight zeros; the sum is plus zero always.
#[test]
fn zeros_of_both_signs() {
    let screen = draw::record([4, 7, 105, 2, 0]);
    for signs in 0..256u32 {
        let zero = |value: usize| if signs >> (value / 3) & 1 == 1 { -0.0 } else { 0.0 };
        let primaries: Vec<f64> = (0..24).map(zero).collect();
        for inks in [[128, 128, 0], [255, 255, 255], [0, 0, 0], [30, 60, 90]] {
            compare(&ColourCase { screen, separation: 0, inks, primaries: primaries.clone() });
        }
    }
}

/// Screens, separations, lengths and values beyond their limits, several at once.
#[test]
fn limits_of_screens_and_lengths() {
    for screen in choose::limit_screens() {
        for separation in [0, 1, 2, u32::MAX] {
            for length in [0, 1, 8, 23, 24, 25, 48] {
                for value in [3.5, -1.0] {
                    let mut primaries = vec![value; length];
                    primaries.iter_mut().take(3).for_each(|good| *good = 3.5);
                    compare(&ColourCase { screen, separation, inks: [1, 2, 3], primaries });
                }
            }
        }
    }
}

/// Any primaries by any screens.
#[test]
fn any_primaries() {
    let mut random = Random::new(51);
    for _ in 0..600_000 {
        compare(&ColourCase {
            screen: choose::screen(&mut random),
            separation: choose::separation(&mut random),
            inks: draw::inks(&mut random),
            primaries: primaries(&mut random),
        });
    }
}

/// One colorant in all cells, for every cell count.
#[test]
fn fulltones() {
    let mut random = Random::new(52);
    for n in 1..=4096 {
        let (a, b) = draw::slope(&mut random);
        let screen = draw::record([a, b, n, 1, 0]);
        let inks = [0; 3].map(|_: u8| random.one_of(&[0, 255]));
        let primaries = (0..24).map(|_| value(&mut random)).collect();
        compare(&ColourCase { screen, separation: random.between(0, 1), inks, primaries });
    }
}
