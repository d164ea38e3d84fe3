//! Records of screens; admitted screens and ink values drawn by chance, the rare shapes no rarer than the
//! common ones.

use cavzemil_plain::random::Random;
use cavzemil_plain::{make_screen, Inks, Screen};

/// The record of a, b, N, K and g: it stores the brick of a, b and N or, where 1 or 2 refuses these, three
/// zeros.
pub fn record([a, b, n, k, g]: [u32; 5]) -> Screen {
    let Screen { columns, rows, shift, .. } = make_screen(a, b, n, 1, 0).screen;
    Screen { a, b, n, k, g, columns, rows, shift }
}

/// A number from 0 to the last, often one of these two.
pub fn edge(random: &mut Random, last: u32) -> u32 {
    let any = random.between(0, last);
    random.one_of(&[0, last, any])
}

/// An admitted slope.
pub fn slope(random: &mut Random) -> (u32, u32) {
    loop {
        let a = random.between(1, 63);
        let b = random.between(a + 1, 64);
        if make_screen(a, b, 1, 1, 0).refusal == 0 {
            return (a, b);
        }
    }
}

/// A divisor of a.
fn divisor(random: &mut Random, a: u32) -> u32 {
    let divisors: Vec<u32> = (1..=a).filter(|divisor| a.is_multiple_of(*divisor)).collect();
    random.one_of(&divisors)
}

/// A cell count: small, at most a, a multiple of a or of one of its divisors, middling, large, the limit.
pub fn cell_count(random: &mut Random, a: u32) -> u32 {
    match random.between(0, 6) {
        0 => random.between(1, 16),
        1 => random.between(1, a),
        2 => a * random.between(1, 4096 / a),
        3 => {
            let divisor = divisor(random, a);
            divisor * random.between(1, 4096 / divisor)
        }
        4 => random.between(1, 300),
        5 => random.between(1, 4096),
        _ => random.between(4095, 4096),
    }
}

/// An admitted screen.
pub fn screen(random: &mut Random) -> Screen {
    let (a, b) = slope(random);
    let n = cell_count(random, a);
    screen_of(random, a, b, n)
}

/// An admitted screen of this slope and cell count.
pub fn screen_of(random: &mut Random, a: u32, b: u32, n: u32) -> Screen {
    let k = 1 + edge(random, n.min(16) - 1);
    let g = edge(random, n - 1);
    record([a, b, n, k, g])
}

/// Ink values: any, near the ends and the middle, or with equal ones among them.
pub fn inks(random: &mut Random) -> Inks {
    let marked = [0, 1, 127, 128, 254, 255];
    match random.between(0, 3) {
        0 => [random.one_of(&marked), random.one_of(&marked), random.one_of(&marked)],
        1 => {
            let few = [random.byte(), random.byte()];
            [random.one_of(&few), random.one_of(&few), random.one_of(&few)]
        }
        _ => [random.byte(), random.byte(), random.byte()],
    }
}
