//! Cellular prediction: the worked weights and colour (rules 12.16 and 12.17), the examples of refusals and
//! their order (rules 11.18 and 16.8), the order of colorants (rule 16.3), what weights add up to (rule 16.6),
//! and full tones (rule 16.7).

use crate::{draw, Subject, DEMICHEL, KUEPPERS};
use cavzemil_plain::random::Random;
use cavzemil_plain::{colorant_order, colorant_sets, set_weights, Inks, Screen};

/// The screen, the ink values and the counts of rule 12.3.
const SCREEN: Screen = Screen { a: 4, b: 7, n: 105, k: 1, g: 0, columns: 105, rows: 1, shift: 77 };
const INKS: Inks = [128, 128, 0];
const COUNTS: [u32; 8] = [26, 26, 0, 27, 0, 0, 0, 26];

/// Ink values that give each colorant all cells, by the colorant's number.
const FULL_TONES: [Inks; 8] = [
    [255, 0, 0],
    [0, 255, 0],
    [0, 0, 255],
    [255, 255, 0],
    [255, 0, 255],
    [0, 255, 255],
    [255, 255, 255],
    [0, 0, 0],
];

/// The rounds of each test on drawn screens.
const ROUNDS: u32 = 2_000;

/// How many colorants a set has.
fn size(set: usize) -> u32 {
    set.count_ones()
}

/// Whether a set has a colorant.
fn holds(set: usize, colorant: usize) -> bool {
    set >> colorant & 1 == 1
}

/// Puts X, Y and Z of a set into a run.
fn put(primaries: &mut [f64], set: usize, xyz: [f64; 3]) {
    primaries[3 * (set - 1)..][..3].copy_from_slice(&xyz);
}

/// The mean of the primaries of a set's colorants, each of the same weight.
fn mean_of(solid: &[f64], set: usize) -> [f64; 3] {
    let sum = |coordinate| -> f64 {
        (0..8).filter(|colorant| holds(set, *colorant)).map(|colorant| solid[3 * colorant + coordinate]).sum()
    };
    [0, 1, 2].map(|coordinate| sum(coordinate) / f64::from(size(set)))
}

/// The colour of a call that is not refused.
fn colour<S: Subject>(screen: Screen, separation: u32, inks: Inks, primaries: &[f64]) -> [f64; 3] {
    let answer = S::predict_cellular(screen, separation, inks, primaries);
    assert_eq!((answer.refusal, answer.set), (0, 0), "{screen:?}, separation {separation}, {inks:?}");
    answer.xyz
}

/// The sets that have weight, with their weights, as answers show them: where a set's value is 1 and all
/// others are 0, the answer is its weight divided by N.
fn weights_shown<S: Subject>(screen: Screen, separation: u32, inks: Inks) -> Vec<(usize, u32)> {
    let mut shown = Vec::new();
    for first in (1..=255).step_by(3) {
        let mut primaries = [0.0; 765];
        put(&mut primaries, first, [1.0, 0.0, 0.0]);
        put(&mut primaries, first + 1, [0.0, 1.0, 0.0]);
        put(&mut primaries, first + 2, [0.0, 0.0, 1.0]);
        let shares = colour::<S>(screen, separation, inks, &primaries);
        let weights = shares.map(|share| (share * f64::from(screen.n)).round() as u32);
        shown.extend((first..).zip(weights).filter(|(_, weight)| *weight > 0));
    }
    shown.sort_by_key(|(set, _)| size(*set));
    shown
}

/// Each colorant stands in the order once, after those of higher counts and, of its own count, after those of
/// lower numbers (rule 16.3).
fn check_order(counts: [u32; 8]) {
    let order = colorant_order(counts);
    let mut colorants = order;
    colorants.sort();
    assert_eq!(colorants, [0, 1, 2, 3, 4, 5, 6, 7], "counts {counts:?}");
    for pair in order.windows(2) {
        let (before, after) = (pair[0], pair[1]);
        let falling = counts[before] > counts[after];
        let equal = counts[before] == counts[after] && before < after;
        assert!(falling || equal, "counts {counts:?}, order {order:?}");
    }
}

/// The weights of sets add up to N, each is a multiple of its set's size, and divided by it they add up to
/// each colorant's count over the sets that have the colorant (rule 16.6).
fn check_sums(counts: [u32; 8], weighed: &[(usize, u32)]) {
    let added: u32 = weighed.iter().map(|(_, weight)| weight).sum();
    assert_eq!(added, counts.iter().sum(), "counts {counts:?}, weights {weighed:?}");
    let multiple = |(set, weight): &(usize, u32)| weight.is_multiple_of(size(*set));
    assert!(weighed.iter().all(multiple), "counts {counts:?}, weights {weighed:?}");
    for (colorant, count) in counts.iter().enumerate() {
        let sets = weighed.iter().filter(|(set, _)| holds(*set, colorant));
        let part: u32 = sets.map(|(set, weight)| weight / size(*set)).sum();
        assert_eq!(part, *count, "colorant {colorant}, counts {counts:?}, weights {weighed:?}");
    }
}

/// Sets with weight, the smallest first, each have all colorants of those before them (rule 16.4).
fn check_nested(weighed: &[(usize, u32)]) {
    for pair in weighed.windows(2) {
        let (smaller, larger) = (pair[0].0, pair[1].0);
        assert!(smaller & larger == smaller && smaller != larger, "weights {weighed:?}");
    }
}

/// Rule 12.16, step by step.
pub fn orders_weights_and_sets_are_the_worked_ones<S: Subject>() {
    assert_eq!(S::counts_of(SCREEN, DEMICHEL, INKS).of, COUNTS);
    let order = colorant_order(COUNTS);
    assert_eq!(order, [3, 0, 1, 7, 2, 4, 5, 6]);
    assert_eq!(set_weights(COUNTS, order), [1, 0, 0, 104, 0, 0, 0, 0]);
    assert_eq!(colorant_sets(order), [8, 9, 11, 139, 143, 159, 191, 255]);
}

/// Rule 12.16, as answers show it.
pub fn sets_8_and_139_have_the_worked_weights<S: Subject>() {
    assert_eq!(weights_shown::<S>(SCREEN, DEMICHEL, INKS), [(8, 1), (139, 104)]);
    assert_eq!(weights_shown::<S>(SCREEN, KUEPPERS, INKS), [(8, 1), (136, 104)]);
}

/// Rule 16.5 with the sets of rule 12.16: 1 × 0.1 and 104 × 0.2, added and divided by 105. Sets without weight
/// have X = 7.
pub fn a_colour_of_two_sets<S: Subject>() {
    let mut primaries = [7.0, -0.0, 200.0].repeat(255);
    put(&mut primaries, 8, [0.1, -0.0, 200.0]);
    put(&mut primaries, 139, [0.2, -0.0, 200.0]);
    let found = colour::<S>(SCREEN, DEMICHEL, INKS, &primaries);
    assert_eq!(found.map(f64::to_bits), [0x3FC9_7A64_7313_FE0D, 0, 200.0f64.to_bits()]);
}

/// Rule 12.17: all colorants have cells, magenta as many as red.
pub fn a_colour_has_the_worked_bits<S: Subject>() {
    let inks = [200, 90, 140];
    let counts = S::counts_of(SCREEN, DEMICHEL, inks).of;
    assert_eq!(counts, [24, 4, 8, 13, 29, 4, 16, 7]);
    let order = colorant_order(counts);
    assert_eq!(order, [4, 0, 6, 3, 2, 7, 1, 5]);
    assert_eq!(set_weights(counts, order), [5, 16, 9, 20, 5, 18, 0, 32]);
    let mut primaries = [4.1, -0.0, 200.0].repeat(255);
    put(&mut primaries, 255, [0.8, -0.0, 200.0]);
    let found = colour::<S>(SCREEN, DEMICHEL, inks, &primaries);
    assert_eq!(found.map(f64::to_bits), [0x4008_C118_DE5A_B279, 0, 200.0f64.to_bits()]);
}

/// Rules 11.15, 11.18 and 16.8: lengths, values, and what comes first.
pub fn calls_are_refused_as_in_the_examples<S: Subject>() {
    let refusal = |screen, separation, primaries: &[f64]| {
        let answer = S::predict_cellular(screen, separation, INKS, primaries);
        assert_eq!(answer.xyz.map(f64::to_bits), [0; 3]);
        (answer.refusal, answer.set)
    };
    let bad_screen = Screen { g: 105, ..SCREEN };
    for length in [0, 24, 762, 764, 766, 768, 1530] {
        for value in [1.0, f64::NAN] {
            assert_eq!(refusal(SCREEN, DEMICHEL, &vec![value; length]), (14, 0));
            assert_eq!(refusal(bad_screen, DEMICHEL, &vec![value; length]), (4, 0));
            assert_eq!(refusal(bad_screen, 2, &vec![value; length]), (100, 0));
        }
    }
    assert_eq!(refusal(bad_screen, DEMICHEL, &[-1.0; 765]), (4, 0));
    assert_eq!(refusal(SCREEN, 2, &[-1.0; 765]), (100, 0));
    assert_eq!(refusal(SCREEN, DEMICHEL, &[-1.0; 765]), (11, 1));
}

/// Rule 16.8: each value of each set, of which only 8 and 139 have weight, and a higher set that is bad too.
pub fn the_lowest_bad_set_is_named<S: Subject>() {
    for set in 1..=255 {
        for coordinate in 0..3 {
            let mut primaries = [1.0; 765];
            put(&mut primaries, 255, [f64::NAN; 3]);
            primaries[3 * (set - 1) + coordinate] = 200.5;
            let answer = S::predict_cellular(SCREEN, DEMICHEL, INKS, &primaries);
            assert_eq!((answer.refusal, answer.set, answer.xyz), (11, set as u32, [0.0; 3]));
        }
    }
}

/// Rule 16.3, of counts as screens give them and of any few numbers, of which many are equal.
pub fn orders_fall_and_leave_no_colorant_out<S: Subject>() {
    let mut random = Random::new(5);
    for _ in 0..20_000 {
        let (screen, inks) = (draw::screen(&mut random), draw::inks(&mut random));
        check_order(S::counts_of(screen, random.one_of(&[DEMICHEL, KUEPPERS]), inks).of);
        let most = random.one_of(&[0, 1, 2, 4096]);
        check_order([0; 8].map(|_: u32| random.between(0, most)));
    }
}

/// Rule 16.6, by the weights that the plain implementation works out, of sets without weight too.
pub fn weights_add_up_to_the_counts<S: Subject>() {
    let mut random = Random::new(55);
    for _ in 0..20_000 {
        let (screen, inks) = (draw::screen(&mut random), draw::inks(&mut random));
        let counts = S::counts_of(screen, random.one_of(&[DEMICHEL, KUEPPERS]), inks).of;
        let order = colorant_order(counts);
        let weighed: Vec<_> = colorant_sets(order).into_iter().zip(set_weights(counts, order)).collect();
        assert_eq!(weighed.iter().map(|(set, _)| size(*set)).collect::<Vec<_>>(), [1, 2, 3, 4, 5, 6, 7, 8]);
        check_sums(counts, &weighed);
        check_nested(&weighed);
    }
}

/// Rule 16.6, by the weights that answers show: there is one such family of nested sets and no second.
pub fn weights_shown_add_up_to_the_counts<S: Subject>() {
    let mut random = Random::new(56);
    for _ in 0..ROUNDS {
        let (screen, inks) = (draw::screen(&mut random), draw::inks(&mut random));
        let separation = random.one_of(&[DEMICHEL, KUEPPERS]);
        let weighed = weights_shown::<S>(screen, separation, inks);
        check_sums(S::counts_of(screen, separation, inks).of, &weighed);
        check_nested(&weighed);
    }
}

/// What rule 16.6 comes to: where every set has the mean of its colorants' primaries, the prediction is that
/// of rule 9.3. Values are 840 / 4,096 times a whole number, so that no mean, product or sum has to be
/// rounded.
pub fn sets_of_mean_primaries_give_the_mean<S: Subject>() {
    let mut random = Random::new(57);
    for _ in 0..ROUNDS {
        let (screen, inks) = (draw::screen(&mut random), draw::inks(&mut random));
        let separation = random.one_of(&[DEMICHEL, KUEPPERS]);
        let solid: Vec<f64> = (0..24).map(|_| f64::from(840 * random.between(0, 975)) / 4096.0).collect();
        let mut primaries = [0.0; 765];
        for set in 1..=255 {
            put(&mut primaries, set, mean_of(&solid, set));
        }
        let found = colour::<S>(screen, separation, inks, &primaries);
        let expected = S::predict(screen, separation, inks, &solid).xyz;
        assert_eq!(found.map(f64::to_bits), expected.map(f64::to_bits), "{screen:?}, {inks:?}");
    }
}

/// Rule 16.7: each colorant in all cells, for every cell count.
pub fn full_tones_come_back_exactly<S: Subject>() {
    let mut random = Random::new(58);
    for n in 1..=4096 {
        let mut primaries: Vec<f64> = (0..765).map(|_| f64::from(random.between(0, 2000)) / 10.0).collect();
        let whole = [0; 3].map(|_: u32| f64::from(random.between(0, 200)));
        for (colorant, inks) in FULL_TONES.into_iter().enumerate() {
            let own = random.one_of(&[whole, [whole[0], -0.0, 200.0], [-0.0; 3]]);
            put(&mut primaries, 1 << colorant, own);
            let separation = random.one_of(&[DEMICHEL, KUEPPERS]);
            let found = colour::<S>(draw::record([4, 7, n, 1, 0]), separation, inks, &primaries);
            assert_eq!(found.map(f64::to_bits), own.map(|value| value.abs().to_bits()), "N = {n}, {inks:?}");
        }
    }
}
