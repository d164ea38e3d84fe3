//! What finished windows promise, counted on windows of whole bricks (rules 13.1 to 13.7).

use crate::{draw, Subject, DEMICHEL, KUEPPERS};
use cavzemil_plain::random::Random;
use cavzemil_plain::{scale, subscreen_of, weights, Brick, Inks, Screen, Separation, Window};

/// A window rendered by both renderers, with the phase of each cell.
pub struct Finished {
    screen: Screen,
    brick: Brick,
    columns: usize,
    rows: usize,
    pub cells: Vec<u8>,
    phases: Vec<u32>,
    tallies: [u64; 8],
}

/// Draws a window of whole bricks somewhere on the sheet, often at one of its corners (rule 13.1).
fn draw_window(random: &mut Random, brick: Brick) -> Window {
    let (columns, rows) = (random.between(0, 3) * brick.columns, random.between(0, 3) * brick.rows);
    let x = draw::edge(random, 65_536 - columns);
    let y = draw::edge(random, 65_536 - rows);
    Window { x, y, columns, rows }
}

/// The phases of a window's cells, row by row.
fn phases_of<S: Subject>(screen: Screen, w: Window) -> Vec<u32> {
    let rows = w.y..w.y + w.rows;
    rows.flat_map(|y| (w.x..w.x + w.columns).map(move |x| S::phase_at(screen, x, y).phase)).collect()
}

/// Renders a window both ways, which must agree (rule 13.7) and not refuse (rules 13.1 and 18.4).
pub fn finish<S: Subject>(screen: Screen, separation: u32, w: Window, input: &[u8]) -> Finished {
    let mut brick = vec![0; screen.n as usize];
    assert_eq!(S::fill_brick(screen, &mut brick), 0, "{screen:?}");
    let mut cells = vec![8; (w.columns * w.rows) as usize];
    let mut again = cells.clone();
    let worked = S::render(screen, separation, w, input, &mut cells);
    let read = S::render_brick(screen, separation, w, input, &brick, &mut again);
    assert_eq!(worked.refusal, 0, "{screen:?} {w:?}");
    assert_eq!(worked, read, "both renderers' tallies, {screen:?} {w:?}");
    assert_eq!(cells, again, "both renderers' cells, {screen:?} {w:?}");
    Finished {
        screen,
        brick: S::brick_of(screen),
        columns: w.columns as usize,
        rows: w.rows as usize,
        cells,
        phases: phases_of::<S>(screen, w),
        tallies: worked.tallies,
    }
}

/// Counts how often each number below a limit stands among the values.
pub fn tally(values: impl Iterator<Item = usize>, limit: usize) -> Vec<u64> {
    let mut tallies = vec![0; limit];
    values.for_each(|value| tallies[value] += 1);
    tallies
}

impl Finished {
    /// How many bricks the window holds: u × v.
    fn bricks(&self) -> u64 {
        self.cells.len() as u64 / u64::from(self.screen.n)
    }

    /// The places of the brick that begins at a column and row of the window.
    fn places(&self, column: usize, row: usize) -> impl Iterator<Item = usize> + '_ {
        let rows = row..row + self.brick.rows as usize;
        let width = self.brick.columns as usize;
        rows.flat_map(move |r| (column..column + width).map(move |c| r * self.columns + c))
    }

    /// A column and row at which a brick may begin within the window.
    fn draw_corner(&self, random: &mut Random) -> (usize, usize) {
        let last_column = self.columns as u32 - self.brick.columns;
        let last_row = self.rows as u32 - self.brick.rows;
        (random.between(0, last_column) as usize, random.between(0, last_row) as usize)
    }

    /// Each phase stands u × v times in the window (rule 13.2), and the tallies are the cells written
    /// (rule 13.3).
    fn check_window(&self) {
        let phases = tally(self.phases.iter().map(|phase| *phase as usize), self.screen.n as usize);
        assert_eq!(phases, vec![self.bricks(); self.screen.n as usize], "{:?}", self.screen);
        let written = tally(self.cells.iter().map(|cell| usize::from(*cell)), 8);
        assert_eq!(written, self.tallies, "{:?}", self.screen);
    }

    /// In a brick within the window each phase stands once, and each subscreen has its even part of each
    /// colorant's count (rule 13.6).
    fn check_brick(&self, corner: (usize, usize), counts: [u32; 8]) {
        let phases = self.places(corner.0, corner.1).map(|place| self.phases[place] as usize);
        assert_eq!(tally(phases, self.screen.n as usize), vec![1; self.screen.n as usize]);
        let split = self.places(corner.0, corner.1).map(|place| {
            let (k, _) = subscreen_of(self.screen, self.phases[place]);
            8 * k as usize + usize::from(self.cells[place])
        });
        let split = tally(split, 8 * self.screen.k as usize);
        assert_eq!(split, even_parts(self.screen.k, counts), "{:?}, brick at {corner:?}", self.screen);
    }
}

/// The part of each colorant's count in each subscreen, ⌊(C(j) + k) / K⌋ − ⌊(C(j − 1) + k) / K⌋; every part
/// is count / K rounded down or up (rule 6.4).
fn even_parts(subscreens: u32, counts: [u32; 8]) -> Vec<u64> {
    let mut parts = Vec::new();
    for k in 0..subscreens {
        let mut running = 0;
        for count in counts {
            let part = (running + count + k) / subscreens - (running + k) / subscreens;
            assert!(part == count / subscreens || part == count.div_ceil(subscreens));
            running += count;
            parts.push(u64::from(part));
        }
    }
    parts
}

/// Every count is its colorant's share, N × weight / D, rounded down or up (rules 13.5 and 18.5), and they add
/// up to N (rule 5.4).
pub fn check_shares(screen: Screen, separation: Separation, inks: Inks, counts: [u32; 8]) {
    let d = scale(separation);
    for (weight, count) in weights(separation, inks).iter().zip(counts) {
        let share = u64::from(screen.n) * weight;
        let count = u64::from(count);
        assert!(count == share / d || count == share.div_ceil(d), "{screen:?} {inks:?}");
    }
    assert_eq!(counts.iter().sum::<u32>(), screen.n, "{screen:?} {inks:?}");
}

/// The rounds of each test; a compiled library stands them in some seconds.
const ROUNDS: u32 = 2_000;

/// Windows of one colour, which keep rules 13.1 to 13.7.
pub fn flat_windows_hold_the_counts_in_every_brick<S: Subject>() {
    let mut random = Random::new(3);
    for _ in 0..ROUNDS {
        let screen = draw::screen(&mut random);
        let inks = draw::inks(&mut random);
        let number = random.one_of(&[DEMICHEL, KUEPPERS]);
        let separation = Separation::from_number(number).expect("0 and 1 are separations");
        let w = draw_window(&mut random, S::brick_of(screen));
        let finished = finish::<S>(screen, number, w, &inks.repeat((w.columns * w.rows) as usize));
        let counts = S::counts_of(screen, number, inks).of;
        check_shares(screen, separation, inks, counts);
        finished.check_window();
        assert_eq!(finished.tallies, counts.map(|count| finished.bricks() * u64::from(count)));
        if finished.bricks() > 0 {
            let corner = finished.draw_corner(&mut random);
            finished.check_brick((0, 0), counts);
            finished.check_brick(corner, counts);
        }
    }
}

/// Windows of many colours, which keep rules 13.2, 13.3 and 13.7 too.
pub fn noisy_windows_hold_every_phase_and_tally_their_cells<S: Subject>() {
    let mut random = Random::new(33);
    for _ in 0..ROUNDS {
        let screen = draw::screen(&mut random);
        let w = draw_window(&mut random, S::brick_of(screen));
        let input: Vec<u8> = (0..3 * w.columns * w.rows).map(|_| random.byte()).collect();
        let separation = random.one_of(&[DEMICHEL, KUEPPERS]);
        finish::<S>(screen, separation, w, &input).check_window();
    }
}
