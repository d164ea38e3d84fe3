//! Larger sheets: the worked corner (rule 12.22), phases and cells seen from a corner (rule 19.3), corners reached
//! in two steps (rule 19.4), and what is refused (rule 19.2).

use crate::draw::{self, record};
use crate::false_records::other_records;
use crate::{Subject, DEMICHEL, KUEPPERS};
use cavzemil_plain::random::Random;
use cavzemil_plain::{Made, Rendering, Screen, Window};

/// The rounds of each test on drawn screens.
const ROUNDS: u32 = 50_000;

/// A corner's column or row: any, a small one, or at a power of two or beside it.
pub fn corner(random: &mut Random) -> u64 {
    let any = random.bits();
    let power = 1 << random.between(0, 63);
    random.one_of(&[any, any % 100_000, power, power - 1, power + 1, u64::MAX])
}

/// What a value, also one below 0, leaves by N.
fn remainder(value: i128, n: u32) -> u32 {
    value.rem_euclid(i128::from(n)) as u32
}

/// The phase of column x and row y of a sheet without limits (rules 2.2 and 19.1).
fn phase(s: Screen, x: u128, y: u128) -> u32 {
    let (x, y) = (x as i128, y as i128);
    remainder(i128::from(s.a) * x + i128::from(s.b) * y - i128::from(s.g), s.n)
}

/// The answer of a call that is not refused.
fn moved<S: Subject>(s: Screen, x: u64, y: u64) -> Screen {
    let Made { refusal, screen } = S::moved(s, x, y);
    assert_eq!(refusal, 0, "to ({x}, {y}), {s:?}");
    screen
}

/// Rule 12.22.
pub fn corners_are_the_worked_ones<S: Subject>() {
    let s = record([4, 7, 105, 2, 40]);
    let seen = moved::<S>(s, 100_000, 70_000);
    assert_eq!(seen, Screen { g: 20, ..s });
    assert_eq!((S::phase_at(seen, 3, 2).phase, phase(s, 100_003, 70_002)), (6, 6));
    assert_eq!(moved::<S>(Screen { g: 0, ..s }, u64::MAX, u64::MAX).g, 45);
}

/// Rules 19.1 and 19.3: only the offset is another, and phases of the moved screen are those from the corner on.
pub fn phases_are_those_from_the_corner_on<S: Subject>() {
    let mut random = Random::new(91);
    for _ in 0..ROUNDS {
        let s = draw::screen(&mut random);
        let (x, y) = (corner(&mut random), corner(&mut random));
        let seen = moved::<S>(s, x, y);
        assert_eq!(Screen { g: s.g, ..seen }, s, "to ({x}, {y})");
        for _ in 0..4 {
            let (u, v) = (draw::edge(&mut random, 65_535), draw::edge(&mut random, 65_535));
            let due = phase(s, u128::from(x) + u128::from(u), u128::from(y) + u128::from(v));
            assert_eq!(S::phase_at(seen, u, v).phase, due, "({u}, {v}) from ({x}, {y}), {s:?}");
        }
    }
}

/// The answer of `render`, and the cells.
fn rendered<S: Subject>(s: Screen, separation: u32, w: Window, input: &[u8]) -> (Rendering, Vec<u8>) {
    let mut cells = vec![8; input.len() / 3];
    (S::render(s, separation, w, input, &mut cells), cells)
}

/// Rule 19.3: a window has the cells, and so the tallies, that are rendered at (0, 0) on the screen as seen from
/// the window's corner.
pub fn parts_have_the_cells_of_the_sheet<S: Subject>() {
    let mut random = Random::new(93);
    for _ in 0..5_000 {
        let s = draw::screen(&mut random);
        let separation = random.one_of(&[DEMICHEL, KUEPPERS]);
        let (x, y) = (random.between(0, 65_516), random.between(0, 65_516));
        let (columns, rows) = (random.between(0, 20), random.between(0, 20));
        let input: Vec<u8> = (0..3 * columns * rows).map(|_| random.byte()).collect();
        let seen = moved::<S>(s, x.into(), y.into());
        let whole = rendered::<S>(s, separation, Window { x, y, columns, rows }, &input);
        let part = rendered::<S>(seen, separation, Window { x: 0, y: 0, columns, rows }, &input);
        assert_eq!(whole.0.refusal, 0);
        assert_eq!(part, whole, "{columns} by {rows} at ({x}, {y}), {s:?}");
    }
}

/// Rule 19.4, also where a sum has more than 64 bits: the offset is then worked out from the sum.
pub fn two_moves_are_one<S: Subject>() {
    let mut random = Random::new(92);
    for _ in 0..ROUNDS {
        let s = draw::screen(&mut random);
        let [x, y, u, v] = [0; 4].map(|_: u32| corner(&mut random));
        let twice = moved::<S>(moved::<S>(s, x, y), u, v);
        let (along, down) = (u128::from(x) + u128::from(u), u128::from(y) + u128::from(v));
        let g = remainder(-i128::from(phase(s, along, down)), s.n);
        assert_eq!(twice, Screen { g, ..s }, "({x}, {y}), then ({u}, {v}), {s:?}");
        if let (Some(along), Some(down)) = (x.checked_add(u), y.checked_add(v)) {
            assert_eq!(twice, moved::<S>(s, along, down), "({x}, {y}), then ({u}, {v}), {s:?}");
        }
    }
}

/// Rule 19.2: a screen that is refused is handed back with its own refusal, wherever it is moved to.
pub fn refused_screens_are_handed_back<S: Subject>() {
    let good = record([4, 7, 70, 2, 5]);
    let mut refused = vec![
        (1, record([4, 8, 70, 2, 5])),
        (2, record([4, 7, 0, 2, 5])),
        (2, record([4, 7, 4097, 2, 5])),
        (3, record([4, 7, 70, 17, 5])),
        (4, record([4, 7, 70, 2, 70])),
    ];
    refused.extend(other_records(good).into_iter().map(|screen| (15, screen)));
    for (refusal, screen) in refused {
        for (x, y) in [(0, 0), (1, 0), (0, 1), (u64::MAX, u64::MAX)] {
            assert_eq!(S::moved(screen, x, y), Made { refusal, screen }, "to ({x}, {y})");
        }
    }
}
