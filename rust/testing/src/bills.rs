//! The ink bill: jobs charged by hand (rule 12.15), the largest one, the examples of refusals (rules 11.16 and
//! 11.17), and jobs against their windows (rule 15.5).

use crate::Subject;
use cavzemil_plain::random::Random;
use cavzemil_plain::Charge;

/// The cells of the whole sheet, which are the most that a window may have (rule 15.3).
pub const SHEET_CELLS: u64 = 4_294_967_296;

/// The counts of rule 12.3 as the tallies of a window.
const WORKED: [u64; 8] = [26, 26, 0, 27, 0, 0, 0, 26];

/// The charge of a job that is not refused.
fn charged<S: Subject>(prices: [u32; 8], tallies: &[u64]) -> u64 {
    let charge = S::charge_of(prices, tallies);
    assert_eq!(charge.refusal, 0, "prices {prices:?}, tallies {tallies:?}");
    charge.cents
}

/// What the windows of a job cost apart, each charged as a job of its own.
fn charged_apart<S: Subject>(prices: [u32; 8], tallies: &[u64]) -> u64 {
    tallies.chunks(8).map(|window| charged::<S>(prices, window)).sum()
}

/// A job costs at most what its windows cost apart, and saves fewer cents than it has windows (rule 15.5).
pub fn check_against_windows<S: Subject>(prices: [u32; 8], tallies: &[u64]) {
    let (job, apart) = (charged::<S>(prices, tallies), charged_apart::<S>(prices, tallies));
    let windows = tallies.len() as u64 / 8;
    assert!(job <= apart, "{job} cents, apart {apart}, prices {prices:?}, tallies {tallies:?}");
    assert!(apart < job + windows, "{job} cents, apart {apart}, prices {prices:?}, tallies {tallies:?}");
}

/// Prices: any, low ones, or at and beside the limits; in half of the draws one of them is 1.
pub fn prices(random: &mut Random) -> [u32; 8] {
    let sort = random.between(0, 3);
    let mut prices = [0; 8].map(|_: u32| match sort {
        0 => random.one_of(&[0, 1, 999_999, 1_000_000]),
        1 => random.between(0, 3),
        _ => random.between(0, 1_000_000),
    });
    if random.once_in(2) {
        prices[random.between(0, 7) as usize] = 1;
    }
    prices
}

/// So many cells, split over the eight colorants or over a few of them.
pub fn split(random: &mut Random, cells: u64) -> [u64; 8] {
    let mut tallies = [0; 8];
    let mut left = cells;
    for _ in 0..random.between(0, 12) {
        let part = random.bits() % (left + 1);
        tallies[random.between(0, 7) as usize] += part;
        left -= part;
    }
    tallies[random.between(0, 7) as usize] += left;
    tallies
}

/// The tallies of a window: of a few cells, of some millions, of any number, or of nearly the whole sheet.
fn window(random: &mut Random) -> [u64; 8] {
    let cells = match random.between(0, 3) {
        0 => u64::from(random.between(0, 9)),
        1 => u64::from(random.between(0, 3_000_000)),
        2 => random.bits() % (SHEET_CELLS + 1),
        _ => SHEET_CELLS - u64::from(random.between(0, 1)),
    };
    split(random, cells)
}

/// What a run of tallies costs, in millionths of a cent.
fn millionths(prices: [u32; 8], tallies: &[u64]) -> u128 {
    let cost = |(place, tally): (usize, &u64)| u128::from(*tally) * u128::from(prices[place % 8]);
    tallies.iter().enumerate().map(cost).sum()
}

/// Adds cells of price 1 to a window that has room for them, so that the run costs whole cents, or a millionth
/// of a cent less or more.
fn settle(random: &mut Random, prices: [u32; 8], tallies: &mut [u64]) {
    let Some(cheap) = prices.iter().position(|price| *price == 1) else { return };
    let short = 1_000_000 - (millionths(prices, tallies) % 1_000_000) as u64;
    let missing = (short + random.one_of(&[999_999, 0, 1])) % 1_000_000;
    let room = |window: &&mut [u64]| window.iter().sum::<u64>() + missing <= SHEET_CELLS;
    if let Some(window) = tallies.chunks_mut(8).find(room) {
        window[cheap] += missing;
    }
}

/// A job of at most so many windows: its prices and its tallies. Often the job or each of its windows costs
/// whole cents, or hardly less or more.
pub fn job(random: &mut Random, windows: u32) -> ([u32; 8], Vec<u64>) {
    let prices = prices(random);
    let mut tallies: Vec<u64> = (0..random.between(1, windows)).flat_map(|_| window(random)).collect();
    match random.between(0, 2) {
        0 => settle(random, prices, &mut tallies),
        1 => tallies.chunks_mut(8).for_each(|window| settle(random, prices, window)),
        _ => {}
    }
    (prices, tallies)
}

/// Rule 12.15, and the charge of no ink and of one cell.
pub fn small_jobs_cost_the_worked_cents<S: Subject>() {
    let one_cell = [0, 0, 0, 0, 0, 1, 0, 0];
    assert_eq!(S::charge_of([1_000_000; 8], &WORKED), Charge { refusal: 0, cents: 105 });
    assert_eq!(S::charge_of([1; 8], &one_cell), Charge { refusal: 0, cents: 1 });
    assert_eq!(S::charge_of([0; 8], &WORKED), Charge { refusal: 0, cents: 0 });
    assert_eq!(S::charge_of([1_000_000; 8], &[0; 8]), Charge { refusal: 0, cents: 0 });
}

/// Rule 15.4: each colorant has its own price, in every window.
pub fn colorants_have_their_own_prices<S: Subject>() {
    let prices = [1, 10, 100, 1_000, 10_000, 100_000, 1_000_000, 0];
    let millions = [1, 2, 3, 4, 5, 6, 7, 8].map(|count| count * 1_000_000);
    assert_eq!(charged::<S>(prices, &millions), 7_654_321);
    assert_eq!(charged::<S>(prices, [millions, millions].as_flattened()), 15_308_642);
}

/// Rule 15.4: a charge of whole cents is left as it is, and a millionth of a cent more is a cent more.
pub fn charges_are_rounded_up_once<S: Subject>() {
    assert_eq!(charged::<S>([125_000; 8], &[1; 8]), 1);
    assert_eq!(
        charged::<S>([125_000, 125_000, 125_000, 125_000, 125_000, 125_000, 125_000, 125_001], &[1; 8]),
        2
    );
    assert_eq!(charged::<S>([125_000; 8], &[1; 80]), 10);
    assert_eq!(charged::<S>([1; 8], &[0, 0, 0, 0, 0, 0, 0, 999_999]), 1);
    assert_eq!(charged::<S>([1; 8], &[0, 0, 0, 1, 0, 0, 0, 999_999]), 1);
    assert_eq!(charged::<S>([1; 8], &[0, 0, 0, 1, 0, 0, 1, 999_999]), 2);
}

/// Rule 15.3: a thousand windows of the whole sheet, all in the dearest ink.
pub fn the_largest_job_is_charged<S: Subject>() {
    for colorant in 0..8 {
        let mut window = [0; 8];
        window[colorant] = SHEET_CELLS;
        assert_eq!(charged::<S>([1_000_000; 8], &window.repeat(1_000)), 4_294_967_296_000);
    }
}

/// Rules 11.10, 11.16 and 11.17, and their order.
pub fn jobs_are_refused_as_in_the_examples<S: Subject>() {
    let refusal = |prices, tallies: &[u64]| {
        let charge = S::charge_of(prices, tallies);
        assert_eq!(charge.cents, 0);
        charge.refusal
    };
    let dear = [0, 0, 0, 0, 0, 0, 0, 1_000_001];
    assert_eq!(refusal([1; 8], &WORKED[..7]), 6);
    assert_eq!(refusal(dear, &WORKED), 12);
    assert_eq!(refusal([1; 8], &[]), 13);
    assert_eq!(refusal([1; 8], &WORKED.repeat(1_001)), 13);
    assert_eq!(refusal([1; 8], &[SHEET_CELLS, 0, 0, 0, 0, 0, 0, 1]), 13);
    assert_eq!(refusal([1; 8], &[u64::MAX; 8]), 13);
    assert_eq!(refusal([1; 8], &[u64::MAX, 1, 0, 0, 0, 0, 0, 0]), 13);
    assert_eq!(refusal(dear, &[u64::MAX; 9]), 6);
    assert_eq!(refusal(dear, &[]), 12);
    assert_eq!(refusal(dear, &[u64::MAX; 8]), 12);
}

/// Rule 15.5 at its first end: windows of whole cents save nothing together.
pub fn windows_of_whole_cents_save_nothing<S: Subject>() {
    for windows in [1, 2, 3, 10, 999, 1_000] {
        let tallies = [0, 1_000_000, 0, 0, 0, 0, 0, 0].repeat(windows);
        assert_eq!(charged::<S>([3; 8], &tallies), 3 * windows as u64);
        assert_eq!(charged_apart::<S>([3; 8], &tallies), 3 * windows as u64);
    }
}

/// Rule 15.5 at its other end: m windows of one cell of price 1 save m − 1 cents.
pub fn windows_of_one_cell_save_all_but_a_cent<S: Subject>() {
    for windows in [1, 2, 3, 10, 999, 1_000] {
        let tallies = [0, 0, 1, 0, 0, 0, 0, 0].repeat(windows);
        assert_eq!(charged::<S>([1; 8], &tallies), 1);
        assert_eq!(charged_apart::<S>([1; 8], &tallies), windows as u64);
    }
}

/// Rule 15.5 on jobs of a few windows, and on some of many.
pub fn jobs_cost_hardly_less_than_their_windows<S: Subject>() {
    let mut random = Random::new(4);
    for (rounds, windows) in [(20_000, 3), (5_000, 30), (200, 1_000)] {
        for _ in 0..rounds {
            let (prices, tallies) = job(&mut random, windows);
            check_against_windows::<S>(prices, &tallies);
        }
    }
}
