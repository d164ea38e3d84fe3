//! What motifs promise, counted in windows around them (rules 18.1 to 18.5), and the worked ones (rules 12.20
//! and 12.21).

use crate::draw::{self, record};
use crate::finished_windows::{check_shares, finish, tally};
use crate::{Subject, DEMICHEL, KUEPPERS};
use cavzemil_plain::random::Random;
use cavzemil_plain::{Inks, Screen, Separation, Window};

/// The rows or columns of the sheet.
const SHEET: u32 = 65_536;

/// Neighbouring columns from x on, with the row at which each begins, and how many rows each has.
struct Motif {
    x: u32,
    starts: Vec<u32>,
    rows: u32,
}

impl Motif {
    /// Draws a motif of a screen anywhere on the sheet, often at its edges and corners. Its columns begin
    /// within so many rows of each other.
    fn draw(random: &mut Random, s: Screen, spread: u32) -> Motif {
        let rows = s.n / s.b;
        let x = draw::edge(random, SHEET - s.b);
        let first = draw::edge(random, SHEET - rows - spread);
        let starts = (0..s.b).map(|_| first + draw::edge(random, spread)).collect();
        Motif { x, starts, rows }
    }

    /// The column and row of each cell.
    fn cells(&self) -> impl Iterator<Item = (u32, u32)> + '_ {
        let columns = (self.x..).zip(&self.starts);
        columns.flat_map(|(x, start)| (*start..start + self.rows).map(move |y| (x, y)))
    }

    /// How often each phase of a screen stands among the cells.
    fn phases<S: Subject>(&self, s: Screen) -> Vec<u64> {
        let phase = |(x, y)| {
            let place = S::phase_at(s, x, y);
            assert_eq!(place.refusal, 0, "({x}, {y}), {s:?}");
            place.phase as usize
        };
        tally(self.cells().map(phase), s.n as usize)
    }

    /// How often each colorant stands among the cells, each asked for by itself with the same ink values.
    fn colorants<S: Subject>(&self, s: Screen, separation: u32, inks: Inks) -> Vec<u64> {
        let colorant = |(x, y)| {
            let cell = S::cell_at(s, separation, x, y, inks);
            assert_eq!(cell.refusal, 0, "({x}, {y}), {s:?}");
            cell.colorant as usize
        };
        tally(self.cells().map(colorant), 8)
    }

    /// Draws a window that has all cells, and up to three columns and rows more on each side.
    fn draw_window(&self, random: &mut Random) -> Window {
        let first = *self.starts.iter().min().expect("a motif has columns");
        let last = *self.starts.iter().max().expect("a motif has columns");
        let (x, columns) = draw_around(random, self.x, self.x + self.starts.len() as u32);
        let (y, rows) = draw_around(random, first, last + self.rows);
        Window { x, y, columns, rows }
    }

    /// The number of each cell in a window.
    fn places(&self, w: Window) -> Vec<usize> {
        self.cells().map(|(x, y)| ((y - w.y) * w.columns + (x - w.x)) as usize).collect()
    }
}

/// Draws where columns or rows of the sheet begin, and how many they are, so that they have those from `first`
/// to before `end`.
fn draw_around(random: &mut Random, first: u32, end: u32) -> (u32, u32) {
    let from = first - random.between(0, first.min(3));
    let to = end + random.between(0, (SHEET - end).min(3));
    (from, to - from)
}

/// A screen that has motifs: b divides N.
fn draw_screen(random: &mut Random) -> Screen {
    let (a, b) = draw::slope(random);
    let rows = 1 + draw::edge(random, 4096 / b - 1);
    draw::screen_of(random, a, b, b * rows)
}

/// Any ink values in a window of so many cells, and these at some of its cells.
fn input_with(random: &mut Random, cells: u32, inks: Inks, places: &[usize]) -> Vec<u8> {
    let mut input: Vec<u8> = (0..3 * cells).map(|_| random.byte()).collect();
    for place in places {
        input[3 * place..][..3].copy_from_slice(&inks);
    }
    input
}

/// Each phase stands once in a motif (rule 18.2), and each colorant as often as its count says, in lone cells
/// (rule 18.3) and in a window that both renderers fill alike (rule 18.4); counts are shares (rule 18.5).
fn check<S: Subject>(random: &mut Random, s: Screen, motif: &Motif) {
    assert_eq!(motif.phases::<S>(s), vec![1; s.n as usize], "phases, {s:?}");
    let inks = draw::inks(random);
    let number = random.one_of(&[DEMICHEL, KUEPPERS]);
    let counts = S::counts_of(s, number, inks).of;
    check_shares(s, Separation::from_number(number).expect("0 and 1 are separations"), inks, counts);
    assert_eq!(motif.colorants::<S>(s, number, inks), counts.map(u64::from), "lone cells, {s:?} {inks:?}");

    let w = motif.draw_window(random);
    let places = motif.places(w);
    let input = input_with(random, w.columns * w.rows, inks, &places);
    let cells = finish::<S>(s, number, w, &input).cells;
    let written = places.iter().map(|place| usize::from(cells[*place]));
    assert_eq!(tally(written, 8), counts.map(u64::from), "written, {s:?} {inks:?} {w:?}");
}

/// Motifs whose columns begin at one row, or within a few or some hundred rows of each other.
pub fn motifs_hold_the_counts_wherever_their_columns_begin<S: Subject>() {
    let mut random = Random::new(61);
    for _ in 0..2_000 {
        let s = draw_screen(&mut random);
        let spread = random.one_of(&[0, 3, 40, 300]);
        let motif = Motif::draw(&mut random, s, spread);
        check::<S>(&mut random, s, &motif);
    }
}

/// Motifs whose columns begin anywhere on the sheet, in windows as high as that.
pub fn motifs_hold_the_counts_over_the_whole_sheet<S: Subject>() {
    let mut random = Random::new(62);
    for _ in 0..10 {
        let s = draw_screen(&mut random);
        let motif = Motif::draw(&mut random, s, SHEET - s.n / s.b);
        check::<S>(&mut random, s, &motif);
    }
}

/// Rule 12.20.
pub fn the_worked_motif_has_each_phase_once<S: Subject>() {
    let s = record([4, 7, 105, 2, 0]);
    let motif = Motif { x: 0, starts: vec![0, 3, 1, 9, 2, 2, 40], rows: 15 };
    assert_eq!((S::phase_at(s, 6, 40).phase, S::phase_at(s, 6, 54).phase), (94, 87));
    assert_eq!(motif.phases::<S>(s), [1; 105]);
    assert_eq!(motif.colorants::<S>(s, DEMICHEL, [128, 128, 0]), [26, 26, 0, 27, 0, 0, 0, 26]);
    check::<S>(&mut Random::new(63), s, &motif);
}

/// Rule 12.21: b does not divide N, and of ⌊N / b⌋ rows of b columns two cells have phase 0, and none phase 1.
pub fn no_motif_where_b_does_not_divide_n<S: Subject>() {
    let s = record([4, 7, 104, 2, 0]);
    let block = Motif { x: 0, starts: vec![0; 7], rows: 14 };
    assert_eq!((S::phase_at(s, 0, 0).phase, S::phase_at(s, 5, 12).phase), (0, 0));
    assert_eq!(block.phases::<S>(s)[..2], [2, 0]);
}
