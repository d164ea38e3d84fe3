//! The worked examples (rules 12.1 to 12.7, 12.9 and 12.10), the examples of refusals (rules 11.5 to 11.13
//! and rule 11.15), and some small plates and colours.

use crate::draw::record;
use crate::{Subject, DEMICHEL, KUEPPERS};
use cavzemil_plain::{subscreen_of, Brick, Cell, Place, Screen, Window};

/// The screen 4/7 with so many cells, one subscreen and no offset.
fn four_sevenths(n: u32) -> Screen {
    record([4, 7, n, 1, 0])
}

/// The screen of rules 12.4 and 12.8: 4/7, N = 105, K = 2.
fn first_screen() -> Screen {
    Screen { k: 2, ..four_sevenths(105) }
}

/// The screen of rule 12.6, which has one cell.
const ONE_CELL: Screen = Screen { a: 1, b: 2, n: 1, k: 1, g: 0, columns: 1, rows: 1, shift: 0 };

/// The ink values of rules 12.3 and 12.4.
const FIRST_INKS: [u8; 3] = [128, 128, 0];

/// A window of one cell.
fn lone(x: u32, y: u32) -> Window {
    Window { x, y, columns: 1, rows: 1 }
}

/// A true brick buffer of N places.
fn filled_brick<S: Subject>(s: Screen) -> Vec<u16> {
    let mut brick = vec![0; s.n as usize];
    assert_eq!(S::fill_brick(s, &mut brick), 0);
    brick
}

/// The colorant at each phase, for the screen and the ink values of rule 12.4; row 0 runs through all phases,
/// 4 and 105 having no common divisor.
fn first_colorants<S: Subject>() -> [u32; 105] {
    let mut colorants = [8; 105];
    for x in 0..105 {
        let phase = S::phase_at(first_screen(), x, 0).phase;
        colorants[phase as usize] = S::cell_at(first_screen(), DEMICHEL, x, 0, FIRST_INKS).colorant;
    }
    colorants
}

/// Rule 12.1.
pub fn bricks_have_the_worked_sizes<S: Subject>() {
    let sizes = |columns, rows, shift| Brick { refusal: 0, columns, rows, shift };
    assert_eq!(S::brick_of(four_sevenths(105)), sizes(105, 1, 77));
    assert_eq!(S::brick_of(four_sevenths(70)), sizes(35, 2, 14));
    assert_eq!(S::brick_of(ONE_CELL), sizes(1, 1, 0));
}

/// Rule 12.2; and rule 12.12: a difference below 0 leaves no remainder below 0.
pub fn phases_are_the_worked_ones<S: Subject>() {
    assert_eq!(S::phase_at(four_sevenths(105), 0, 1), Place { refusal: 0, phase: 7 });
    assert_eq!(S::phase_at(four_sevenths(105), 3, 2), Place { refusal: 0, phase: 26 });
    assert_eq!(S::phase_at(Screen { g: 40, ..four_sevenths(105) }, 0, 1), Place { refusal: 0, phase: 72 });
}

/// Rules 12.3, 12.5, 12.6 and 12.8. Each share rounded by itself would give 26 of blue (rule 12.11).
pub fn counts_are_the_worked_ones<S: Subject>() {
    let of = |screen, separation, inks| S::counts_of(screen, separation, inks).of;
    assert_eq!(of(four_sevenths(105), DEMICHEL, FIRST_INKS), [26, 26, 0, 27, 0, 0, 0, 26]);
    assert_eq!(of(first_screen(), DEMICHEL, FIRST_INKS), [26, 26, 0, 27, 0, 0, 0, 26]);
    assert_eq!(of(first_screen(), KUEPPERS, FIRST_INKS), [0, 0, 0, 53, 0, 0, 0, 52]);
    assert_eq!(of(four_sevenths(70), KUEPPERS, [51, 102, 204]), [0, 0, 28, 0, 0, 14, 14, 14]);
    assert_eq!(of(ONE_CELL, KUEPPERS, [128, 0, 0]), [1, 0, 0, 0, 0, 0, 0, 0]);
    assert_eq!(of(ONE_CELL, KUEPPERS, [127, 0, 0]), [0, 0, 0, 0, 0, 0, 0, 1]);
}

/// Rule 12.4. Counts divided by K would leave a cell of the second subscreen empty (rule 12.13).
pub fn subscreens_split_the_first_counts<S: Subject>() {
    let mut cells = [0; 2];
    let mut counts = [[0; 8]; 2];
    for (phase, colorant) in first_colorants::<S>().iter().enumerate() {
        let (k, _) = subscreen_of(first_screen(), phase as u32);
        cells[k as usize] += 1;
        counts[k as usize][*colorant as usize] += 1;
    }
    assert_eq!(cells, [52, 53]);
    assert_eq!(counts, [[13, 13, 0, 13, 0, 0, 0, 13], [13, 13, 0, 14, 0, 0, 0, 13]]);
}

/// Rule 12.4.
pub fn phase_39_is_white_and_phase_91_blue<S: Subject>() {
    assert_eq!(first_colorants::<S>()[39], 7);
    assert_eq!(first_colorants::<S>()[91], 3);
}

/// Rule 12.6.
pub fn one_cell_is_cyan_from_128_on<S: Subject>() {
    let colorant = |c| S::cell_at(ONE_CELL, KUEPPERS, 0, 0, [c, 0, 0]);
    assert_eq!(colorant(128), Cell { refusal: 0, colorant: 0 });
    assert_eq!(colorant(127), Cell { refusal: 0, colorant: 7 });
}

/// Rule 12.7.
pub fn the_last_column_and_the_last_offset_pass<S: Subject>() {
    let mut out = [9];
    assert_eq!(S::render(first_screen(), DEMICHEL, lone(65_535, 0), &FIRST_INKS, &mut out).refusal, 0);
    assert_eq!(S::phase_at(Screen { g: 69, ..four_sevenths(70) }, 0, 0), Place { refusal: 0, phase: 1 });
}

/// Rules 11.5 to 11.9.
pub fn screens_and_places_are_refused_as_in_the_examples<S: Subject>() {
    let refusal = |a, b, n, k, g| S::brick_of(record([a, b, n, k, g])).refusal;
    assert_eq!(refusal(4, 8, 70, 1, 0), 1);
    assert_eq!(refusal(4, 7, 0, 1, 0), 2);
    assert_eq!(refusal(4, 7, 5, 6, 0), 3);
    assert_eq!(refusal(4, 7, 70, 1, 70), 4);
    assert_eq!(S::phase_at(four_sevenths(70), 65_536, 0), Place { refusal: 5, phase: 0 });
}

/// Rules 11.9 to 11.12.
pub fn renderings_are_refused_as_in_the_examples<S: Subject>() {
    let s = four_sevenths(70);
    let brick = filled_brick::<S>(s);
    let wide = Window { columns: 2, ..lone(65_535, 0) };
    let mut out = [200; 2];
    let cases = [(wide, 6, 2, 70, 5), (lone(0, 0), 4, 1, 70, 6), (lone(0, 0), 3, 0, 70, 7)];
    for (window, input, output, places, refusal) in cases {
        let inks = &[0; 6][..input];
        let worked = S::render(s, DEMICHEL, window, inks, &mut out[..output]);
        let read = S::render_brick(s, DEMICHEL, window, inks, &brick[..places], &mut out[..output]);
        assert_eq!((worked.refusal, read.refusal), (refusal, refusal));
        assert_eq!((worked.tallies, read.tallies), ([0; 8], [0; 8]));
    }
    assert_eq!(S::render_brick(s, DEMICHEL, lone(0, 0), &[0; 3], &brick[..69], &mut out[..1]).refusal, 8);
    assert_eq!(S::fill_brick(s, &mut brick.clone()[..69]), 8);
    assert_eq!(out, [200; 2]);
}

/// Rule 11.13.
pub fn plates_are_refused_as_in_the_example<S: Subject>() {
    let mut cells = [200];
    assert_eq!(S::unpack(1, 1, &[128, 128, 0, 0, 0, 0, 0, 0], &mut cells), 9);
    assert_eq!(cells, [200]);
    assert_eq!(S::unpack(1, 1, &[0, 128, 0, 0, 0, 0, 0, 0], &mut cells), 0);
    assert_eq!(cells, [1]);
}

/// Rules 8.1 to 8.5.
pub fn plates_set_the_bit_of_each_pixel<S: Subject>() {
    let cells = [0, 1, 2, 3, 4, 5, 6, 7, 0, 7];
    let mut planes = [255; 16];
    assert_eq!(S::pack(10, 1, &cells, &mut planes), 0);
    assert_eq!(planes, [128, 128, 64, 0, 32, 0, 16, 0, 8, 0, 4, 0, 2, 0, 1, 64]);
    assert_eq!(S::pack(10, 1, &[8; 10], &mut planes), 9);
}

/// Rule 12.9.
pub fn planes_are_the_worked_ones<S: Subject>() {
    let mut planes = [255; 16];
    assert_eq!(S::pack(2, 2, &[0, 1, 1, 7], &mut planes), 0);
    assert_eq!(planes, [128, 0, 64, 128, 0, 0, 0, 0, 0, 0, 0, 0, 0, 0, 0, 64]);
}

/// Rule 12.10.
pub fn a_colour_has_the_worked_bits<S: Subject>() {
    let mut primaries = [0.1, -0.0, 200.0].repeat(8);
    primaries[21] = 0.2;
    let colour = S::predict(four_sevenths(105), DEMICHEL, FIRST_INKS, &primaries);
    assert_eq!((colour.refusal, colour.colorant), (0, 0));
    assert_eq!(colour.xyz.map(f64::to_bits), [0x3FBF_F065_6CBD_323B, 0, 200.0f64.to_bits()]);
}

/// Rule 11.15.
pub fn the_first_bad_primary_is_named<S: Subject>() {
    let mut primaries = [1.0; 24];
    primaries[3] = 200.5;
    primaries[9] = f64::NAN;
    let refused = S::predict(first_screen(), DEMICHEL, FIRST_INKS, &primaries);
    assert_eq!((refused.refusal, refused.colorant, refused.xyz), (11, 1, [0.0; 3]));
}

/// Rule 9.4.
pub fn a_fulltone_comes_back_exactly<S: Subject>() {
    let mut primaries = [33.3; 24];
    primaries[..3].copy_from_slice(&[17.0, 200.0, -0.0]);
    for n in 1..=4096 {
        let colour = S::predict(four_sevenths(n), KUEPPERS, [255, 0, 0], &primaries);
        assert_eq!((colour.refusal, colour.colorant), (0, 0));
        assert_eq!(colour.xyz.map(f64::to_bits), [17.0f64, 200.0, 0.0].map(f64::to_bits));
    }
}

/// Rule 12.14.
pub fn bricks_are_stepped_by_s_from_the_sheets_corner<S: Subject>() {
    let s = Screen { g: 5, k: 3, ..four_sevenths(70) };
    let window = Window { x: 11, y: 3, columns: 40, rows: 9 };
    let input: Vec<u8> = (0..3 * 40 * 9).map(|place| (place * 7 % 256) as u8).collect();
    let (mut worked, mut read) = ([8; 360], [8; 360]);
    let first = S::render(s, DEMICHEL, window, &input, &mut worked);
    let second = S::render_brick(s, DEMICHEL, window, &input, &filled_brick::<S>(s), &mut read);
    assert_eq!((first, worked), (second, read));
}
