//! The ink bill of jobs (rules 15.1 to 15.4), and of windows as the renderers answered them (rule 15.6).

use crate::case::{compare, differing, smaller_numbers, Case, Mismatch};
use crate::guarded::Guarded;
use crate::images;
use crate::subject::Compiled;
use cavzemil_plain::random::Random;
use cavzemil_testing::bills::{check_against_windows, job, prices, split, SHEET_CELLS};
use cavzemil_testing::Subject;

/// A call of charge_of.
#[derive(Clone)]
struct BillCase {
    prices: [u32; 8],
    tallies: Vec<u64>,
}

impl BillCase {
    /// Cases with one price smaller.
    fn smaller_prices(&self) -> Vec<BillCase> {
        let mut cases = Vec::new();
        for colorant in 0..8 {
            for price in smaller_numbers(self.prices[colorant]) {
                let mut case = self.clone();
                case.prices[colorant] = price;
                cases.push(case);
            }
        }
        cases
    }

    /// Cases with one tally smaller.
    fn smaller_tallies(&self) -> Vec<BillCase> {
        let mut cases = Vec::new();
        for (place, tally) in self.tallies.iter().enumerate() {
            for smaller in [0, tally / 2, tally.saturating_sub(1)] {
                let mut case = self.clone();
                case.tallies[place] = smaller;
                cases.extend((smaller < *tally).then_some(case));
            }
        }
        cases
    }

    /// Cases with a shorter run: one of its halves, or all but its first window or its last number.
    fn shorter(&self) -> Vec<BillCase> {
        let (length, half) = (self.tallies.len(), self.tallies.len() / 16 * 8);
        let runs = [0..half, half..length, 8.min(length)..length, 0..length.saturating_sub(1)];
        let shorter = runs.into_iter().filter(|run| run.len() < length);
        shorter.map(|run| BillCase { tallies: self.tallies[run].to_vec(), ..self.clone() }).collect()
    }
}

impl Case for BillCase {
    fn words(&self) -> String {
        let first = &self.tallies[..self.tallies.len().min(32)];
        let run = format!("{} tallies, beginning {first:?}", self.tallies.len());
        format!("charge_of, prices {:?}\n  {run}", self.prices)
    }

    fn mismatch(&self) -> Option<Mismatch> {
        let kept = Guarded::new(&self.tallies, 123_456_789);
        let lent = kept.clone();
        let plain = cavzemil_plain::charge_of(self.prices, kept.lent());
        let compiled = Compiled::charge_of(self.prices, lent.lent());
        differing(plain, compiled).or_else(|| kept.mismatch(&lent, "tallies"))
    }

    fn smaller(&self) -> Vec<BillCase> {
        let mut cases = self.shorter();
        cases.extend(self.smaller_prices());
        if self.tallies.len() <= 64 {
            cases.extend(self.smaller_tallies());
        }
        cases
    }
}

/// Prices that are admitted and of which no two are equal.
const PRICES: [u32; 8] = [1_000_000, 999_999, 1, 0, 17, 123_456, 500_000, 31];

/// The same with the last one beyond its limit.
const DEAR: [u32; 8] = [1_000_000, 999_999, 1, 0, 17, 123_456, 500_000, 1_000_001];

/// A run of so many numbers of which no neighbours are equal.
fn run(length: usize) -> Vec<u64> {
    (0..length as u64).map(|place| 1_000 * place % 7_919 + place).collect()
}

/// Windows of so many cells: all of one colorant, all but some of it, and split by chance.
fn windows_of(random: &mut Random, cells: u64) -> Vec<[u64; 8]> {
    let mut windows = Vec::new();
    for colorant in 0..8 {
        for (other, part) in [(0, 0), (1, 1), (3, cells / 2), (7, cells - 1), (5, cells / 3)] {
            let mut window = [0; 8];
            window[colorant] = cells - part;
            window[(colorant + other) % 8] += part;
            windows.push(window);
        }
    }
    windows.extend((0..40).map(|_| split(random, cells)));
    windows
}

/// Lengths about whole windows and about the longest run, with good and bad prices and tallies: so up to
/// three refusals apply at once.
#[test]
fn limits_of_lengths() {
    for length in (0..=33).chain(7_983..=8_025).chain([15_999, 16_000, 16_008, 524_288, 524_296]) {
        for prices in [PRICES, DEAR] {
            for tallies in [run(length), vec![0; length], vec![u64::MAX; length]] {
                compare(&BillCase { prices, tallies });
            }
        }
    }
}

/// Each price at its limit and beyond it, of tallies that are good, too many in the last window, or none.
#[test]
fn limits_of_prices() {
    let prices = [0, 1, 999_999, 1_000_000, 1_000_001, 1 << 24, (1 << 31) + 1, u32::MAX];
    for (colorant, price) in (0..8).flat_map(|colorant| prices.map(|price| (colorant, price))) {
        for others in [[0; 8], [1_000_000; 8], PRICES, DEAR] {
            let mut prices = others;
            prices[colorant] = price;
            for mut tallies in [run(8), run(24), run(8_000), vec![1; 8], Vec::new(), run(9)] {
                compare(&BillCase { prices, tallies: tallies.clone() });
                if let Some(last) = tallies.last_mut() {
                    *last = u64::MAX;
                }
                compare(&BillCase { prices, tallies });
            }
        }
    }
}

/// Windows of the whole sheet, of one cell less and of one more, and of about twice as many: as the first, a
/// middle and the last of a job.
#[test]
fn limits_of_windows() {
    let mut random = Random::new(71);
    for cells in [SHEET_CELLS - 1, SHEET_CELLS, SHEET_CELLS + 1, 2 * SHEET_CELLS, 2 * SHEET_CELLS + 1] {
        for window in windows_of(&mut random, cells) {
            for (windows, place) in [(1, 0), (2, 0), (2, 1), (7, 0), (7, 3), (7, 6), (1_000, 999)] {
                let mut tallies = run(8 * windows);
                tallies[8 * place..8 * place + 8].copy_from_slice(&window);
                compare(&BillCase { prices: PRICES, tallies });
            }
        }
    }
}

/// At each place of the longest job the most cells that a window may have, and then one more in that window.
#[test]
fn one_large_window_among_a_thousand() {
    for place in 0..8_000 {
        let mut tallies = vec![0; 8_000];
        tallies[place] = SHEET_CELLS;
        compare(&BillCase { prices: PRICES, tallies: tallies.clone() });
        tallies[place / 8 * 8 + (place + 1) % 8] = 1;
        compare(&BillCase { prices: PRICES, tallies });
    }
}

/// Tallies that 64 bits can't add up, and of which many would come out small there: by themselves, after an
/// empty window, and twice in a job.
#[test]
fn sums_that_run_over() {
    let most = u64::MAX;
    let parts: [&[u64]; 12] = [
        &[most],
        &[most - 1],
        &[1 << 63],
        &[most, 1],
        &[most, 2],
        &[most, most],
        &[1 << 63, 1 << 63],
        &[1 << 62, 1 << 62, 1 << 62, 1 << 62],
        &[1 << 61; 8],
        &[most; 8],
        &[most - 7, 1, 1, 1, 1, 1, 1, 2],
        &[(1 << 32) + 1, most - (1 << 32)],
    ];
    for part in parts {
        for (first, step) in (0..8).flat_map(|first| [1, 3, 5, 7].map(|step| (first, step))) {
            let mut window = [0; 8];
            part.iter().enumerate().for_each(|(place, tally)| window[(first + step * place) % 8] = *tally);
            for prices in [PRICES, [0; 8], [1; 8], [1_000_000; 8]] {
                for tallies in [vec![window], vec![[0; 8], window], vec![window, [1; 8], window]] {
                    compare(&BillCase { prices, tallies: tallies.into_flattened() });
                }
            }
        }
    }
}

/// Numbers of windows about the most, and windows that are empty, small, and of the whole sheet.
#[test]
fn limits_of_jobs() {
    let whole = [0, 0, 0, 0, 0, SHEET_CELLS, 0, 0];
    for windows in [0, 1, 2, 998, 999, 1_000, 1_001, 1_002, 2_000, 65_536, 65_537] {
        for window in [[0; 8], [1; 8], whole] {
            for prices in [[0; 8], [1; 8], PRICES, [1_000_000; 8]] {
                compare(&BillCase { prices, tallies: window.repeat(windows) });
            }
        }
    }
}

/// Jobs of two windows that cost so many cents, or somewhat less or more: the first window has cells of a
/// colorant at a price, the second a few of another that are a millionth of a cent each.
fn jobs_about(cents: u64, colorant: usize, price: u32) -> Vec<BillCase> {
    let other = (colorant + 3) % 8;
    let mut prices = [0; 8];
    prices[colorant] = price;
    prices[other] = 1;
    let mut cases = Vec::new();
    for (cells, more) in (0..3).flat_map(|cells| (0..3).map(move |more| (cells, more))) {
        let mut tallies = vec![0; 16];
        tallies[colorant] = (cents * 1_000_000 / u64::from(price) + cells).saturating_sub(1);
        tallies[8 + other] = more;
        cases.push(BillCase { prices, tallies });
    }
    cases
}

/// Costs about each of the first whole cents.
#[test]
fn costs_about_whole_cents() {
    for price in [1, 2, 3, 7, 999, 1_000, 500_000, 999_999, 1_000_000] {
        for (colorant, cents) in (0..8).flat_map(|colorant| (0..20).map(move |cents| (colorant, cents))) {
            jobs_about(cents, colorant, price).iter().for_each(compare);
        }
    }
}

/// Puts a price, a tally or a window of a job at its limit or beyond it.
fn spoil(random: &mut Random, case: &mut BillCase) {
    let place = random.between(0, case.tallies.len() as u32 - 1) as usize;
    let any = random.bits();
    match random.between(0, 2) {
        0 => case.prices[place % 8] = random.one_of(&[1_000_000, 1_000_001, u32::MAX, any as u32]),
        1 => case.tallies[place] = random.one_of(&[SHEET_CELLS, SHEET_CELLS + 1, u64::MAX, any]),
        _ => {
            let cells = SHEET_CELLS + u64::from(random.between(0, 2));
            let window = split(random, cells);
            case.tallies[place / 8 * 8..][..8].copy_from_slice(&window);
        }
    }
}

/// Cuts a run off at any place, or adds up to 15 numbers to it.
fn spoil_length(random: &mut Random, tallies: &mut Vec<u64>) {
    let any = random.between(0, tallies.len() as u32) as usize;
    let length = random.one_of(&[any, tallies.len() + any % 16]);
    tallies.resize(length, 5);
}

/// A job of at most so many windows, in an eighth of the draws spoiled in one or two of its numbers, and
/// seldom in its length.
fn draw_case(random: &mut Random, windows: u32) -> BillCase {
    let (prices, tallies) = job(random, windows);
    let mut case = BillCase { prices, tallies };
    if random.once_in(8) {
        spoil(random, &mut case);
        if random.once_in(2) {
            spoil(random, &mut case);
        }
    }
    if random.once_in(30) {
        spoil_length(random, &mut case.tallies);
    }
    case
}

/// Jobs of any sort, of a few windows and of many.
#[test]
fn any_jobs() {
    let mut random = Random::new(72);
    for (rounds, windows) in [(200_000, 3), (50_000, 20), (1_000, 1_000)] {
        for _ in 0..rounds {
            compare(&draw_case(&mut random, windows));
        }
    }
}

/// What both renderers answered, refused calls included, is handed on and charged (rule 15.6).
#[test]
fn windows_as_the_renderers_answered_them() {
    let mut random = Random::new(73);
    let (mut served, mut refused) = (0, 0);
    for _ in 0..4_000 {
        let windows = random.between(1, 6);
        let answers: Vec<_> = (0..windows).flat_map(|_| images::draw_answers(&mut random)).collect();
        refused += answers.iter().filter(|answer| answer.refusal != 0).count();
        served += answers.iter().filter(|answer| answer.refusal == 0).count();
        let tallies: Vec<u64> = answers.iter().flat_map(|answer| answer.tallies).collect();
        let prices = prices(&mut random);
        check_against_windows::<Compiled>(prices, &tallies);
        compare(&BillCase { prices, tallies });
    }
    assert!(served > 1_000 && refused > 1_000, "{served} calls were served and {refused} refused");
}
