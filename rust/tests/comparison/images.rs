//! Both renderers on windows and images (rules 7.1 to 7.6).

use crate::case::{
    compare, differing, mended, screen_words, separation_words, smaller_screens, smaller_windows, Case,
    Mismatch,
};
use crate::choose::{self, Length};
use crate::guarded::{blank, Guarded};
use crate::subject::Compiled;
use cavzemil_plain::random::Random;
use cavzemil_plain::{screen_refusal, Inks, Rendering, Screen, Window};
use cavzemil_testing::{draw, Subject};

/// An image by its pixels' places, so that a smaller window keeps what is left of it.
#[derive(Clone, Copy, Debug)]
enum Image {
    Flat(Inks),
    Gradient,
    Noise(u64),
}

impl Image {
    /// The ink values of a pixel of the window.
    fn pixel(self, column: u32, row: u32) -> Inks {
        match self {
            Image::Flat(inks) => inks,
            Image::Gradient => [column as u8, row as u8, column.wrapping_add(row) as u8],
            Image::Noise(seed) => {
                let place = u64::from(row) << 32 | u64::from(column);
                draw::inks(&mut Random::new(seed ^ place.wrapping_mul(0x9e37_79b9)))
            }
        }
    }

    /// The first so many bytes of a window's input; surplus ones are 77.
    fn input(self, w: Window, length: usize) -> Vec<u8> {
        let mut input = Vec::with_capacity(length + 3);
        'rows: for row in 0..w.rows {
            for column in 0..w.columns {
                if input.len() >= length {
                    break 'rows;
                }
                input.extend(self.pixel(column, row));
            }
        }
        input.resize(length, 77);
        input
    }

    /// A simpler image that has the first pixel in common.
    fn simpler(self) -> Option<Image> {
        match self {
            Image::Flat([0, 0, 0]) => None,
            Image::Flat(_) => Some(Image::Flat([0, 0, 0])),
            _ => Some(Image::Flat(self.pixel(0, 0))),
        }
    }

    /// An image of any sort.
    fn draw(random: &mut Random) -> Image {
        match random.between(0, 3) {
            0 => Image::Flat(draw::inks(random)),
            1 => Image::Gradient,
            _ => Image::Noise(random.bits()),
        }
    }
}

/// Where a renderer has its phases from: it works them out, or reads a brick buffer of some sort.
#[derive(Clone, Copy)]
enum Phases {
    WorkedOut,
    TrueBrick,
    LongBrick,
    ShortBrick,
    EmptyBrick,
    BrickOfNextOffset,
    DamagedBrick { place: u32, value: u16 },
}

impl Phases {
    /// The brick buffer; where 1 to 4 refuse the screen it may be any (rule 3.8), and where 15 does, it is
    /// that of the screen with a true record.
    fn brick(self, screen: Screen) -> Vec<u16> {
        let screen = mended(screen);
        if screen_refusal(screen) != 0 {
            return vec![3, 1, 4, 1, 5];
        }
        let mut brick = vec![0; screen.n as usize];
        let offset = match self {
            Phases::BrickOfNextOffset => (screen.g + 1) % screen.n,
            _ => screen.g,
        };
        cavzemil_plain::fill_brick(Screen { g: offset, ..screen }, &mut brick);
        match self {
            Phases::LongBrick => brick.extend([0, 65_535, 7]),
            Phases::ShortBrick => brick.truncate(brick.len() - 1),
            Phases::EmptyBrick => brick.clear(),
            Phases::DamagedBrick { place, value } => brick[place as usize % screen.n as usize] = value,
            _ => {}
        }
        brick
    }

    /// Phases of any sort for a screen, mostly those of true bricks.
    fn draw(random: &mut Random, screen: Screen) -> Phases {
        match random.between(0, 19) {
            0 => Phases::ShortBrick,
            1 => Phases::EmptyBrick,
            2 => Phases::BrickOfNextOffset,
            3..=5 => Phases::draw_damage(random, screen.n.clamp(1, 4096)),
            6..=9 => Phases::LongBrick,
            _ => Phases::TrueBrick,
        }
    }

    /// A brick of so many cells with one damaged place.
    fn draw_damage(random: &mut Random, n: u32) -> Phases {
        let (any_place, any_value) = (random.between(0, n - 1), random.between(0, 65_535));
        let place = random.one_of(&[0, n - 1, any_place]);
        let value = random.one_of(&[0, n - 1, n, 65_535, any_value]) as u16;
        Phases::DamagedBrick { place, value }
    }

    /// Where the phases come from, in plain words.
    fn words(self) -> String {
        match self {
            Phases::WorkedOut => "with phases worked out".into(),
            Phases::TrueBrick => "from a true brick".into(),
            Phases::LongBrick => "from a true brick with three more places".into(),
            Phases::ShortBrick => "from a true brick without its last place".into(),
            Phases::EmptyBrick => "from an empty brick buffer".into(),
            Phases::BrickOfNextOffset => "from the brick of offset g + 1".into(),
            Phases::DamagedBrick { place, value } => {
                format!("from a brick with {value} at place {place} by N")
            }
        }
    }
}

/// A call of one of the renderers.
#[derive(Clone)]
struct ImageCase {
    screen: Screen,
    separation: u32,
    window: Window,
    image: Image,
    phases: Phases,
    input: Length,
    output: Length,
}

impl ImageCase {
    /// The input's length in bytes.
    fn input_places(&self) -> usize {
        self.input.places(3 * u128::from(self.window.columns) * u128::from(self.window.rows))
    }

    /// The output's length in bytes.
    fn output_places(&self) -> usize {
        self.output.places(u128::from(self.window.columns) * u128::from(self.window.rows))
    }

    /// A case of a good screen and window, phases worked out and lengths as stated.
    fn good(screen: Screen, separation: u32, window: Window, image: Image) -> ImageCase {
        let (phases, input, output) = (Phases::WorkedOut, Length::Stated, Length::Stated);
        ImageCase { screen, separation, window, image, phases, input, output }
    }
}

impl Case for ImageCase {
    fn words(&self) -> String {
        let Window { x, y, columns, rows } = self.window;
        let input = self.image.input(self.window, self.input_places());
        let first = &input[..input.len().min(24)];
        [
            format!("rendering {}, {}", self.phases.words(), screen_words(self.screen)),
            format!("{}, image {:?}", separation_words(self.separation), self.image),
            format!("window of {columns} columns and {rows} rows at ({x}, {y})"),
            format!("input of {} bytes, beginning {first:?}", input.len()),
            format!("output of {} bytes", self.output_places()),
        ]
        .join("\n  ")
    }

    fn mismatch(&self) -> Option<Mismatch> {
        let ImageCase { screen, separation, window, .. } = *self;
        let input = Guarded::new(&self.image.input(window, self.input_places()), 173);
        let brick = Guarded::new(&self.phases.brick(screen), 1);
        let mut expected = blank(self.output_places());
        let (lent, lent_brick, mut found) = (input.clone(), brick.clone(), expected.clone());
        let out = expected.lent_mut();
        let compiled_out = found.lent_mut();
        let (plain, compiled) = match self.phases {
            Phases::WorkedOut => (
                cavzemil_plain::render(screen, separation, window, input.lent(), out),
                Compiled::render(screen, separation, window, lent.lent(), compiled_out),
            ),
            _ => (
                cavzemil_plain::render_brick(screen, separation, window, input.lent(), brick.lent(), out),
                Compiled::render_brick(
                    screen,
                    separation,
                    window,
                    lent.lent(),
                    lent_brick.lent(),
                    compiled_out,
                ),
            ),
        };
        differing(plain, compiled)
            .or_else(|| expected.mismatch(&found, "output"))
            .or_else(|| input.mismatch(&lent, "input"))
            .or_else(|| brick.mismatch(&lent_brick, "brick buffer"))
    }

    fn smaller(&self) -> Vec<ImageCase> {
        let windows = smaller_windows(self.window).into_iter();
        let mut cases: Vec<ImageCase> = windows.map(|window| ImageCase { window, ..self.clone() }).collect();
        let screens = smaller_screens(self.screen).into_iter();
        cases.extend(screens.map(|screen| ImageCase { screen, ..self.clone() }));
        cases.extend(self.image.simpler().map(|image| ImageCase { image, ..self.clone() }));
        cases
    }
}

/// Compares a case by both renderers, the second with phases of any sort.
fn compare_both(random: &mut Random, case: ImageCase) {
    compare(&case);
    let phases = Phases::draw(random, case.screen);
    compare(&ImageCase { phases, ..case });
}

/// A case with a window of at most so many columns and rows.
fn draw_case(random: &mut Random, columns: u32, rows: u32) -> ImageCase {
    ImageCase {
        screen: choose::screen(random),
        separation: choose::separation(random),
        window: choose::window(random, columns, rows),
        image: Image::draw(random),
        phases: Phases::WorkedOut,
        input: Length::draw(random),
        output: Length::draw(random),
    }
}

/// What both renderers of the compiled library answer for a call of any sort, which may be refused.
pub fn draw_answers(random: &mut Random) -> [Rendering; 2] {
    let case = draw_case(random, 30, 20);
    let ImageCase { screen, separation, window, .. } = case;
    let input = case.image.input(window, case.input_places());
    let brick = Phases::draw(random, screen).brick(screen);
    let mut out = vec![0; case.output_places()];
    [
        Compiled::render(screen, separation, window, &input, &mut out),
        Compiled::render_brick(screen, separation, window, &input, &brick, &mut out),
    ]
}

/// Windows at each limit of the sheet and beyond it, some of them empty.
fn limit_windows() -> Vec<Window> {
    let most = u32::MAX;
    let numbers = [
        [0, 0, 1, 1],
        [65_535, 65_535, 1, 1],
        [65_536, 65_536, 0, 0],
        [65_535, 0, 2, 1],
        [0, 65_535, 1, 2],
        [65_536, 0, 1, 1],
        [0, 65_536, 1, 1],
        [65_537, 0, 0, 0],
        [0, 65_537, 0, 1],
        [0, 0, 65_536, 65_536],
        [0, 0, 65_537, 0],
        [0, 0, 0, 65_537],
        [most, 0, 1, 1],
        [0, most, 1, 1],
        [1, 1, most, most],
        [most, most, most, most],
        [0, 0, 1 << 31, 2],
    ];
    numbers.into_iter().map(|[x, y, columns, rows]| Window { x, y, columns, rows }).collect()
}

/// Screens, windows, lengths and bricks at and beyond their limits, all combinations.
#[test]
fn limits_of_rendering() {
    let phases = [
        Phases::WorkedOut,
        Phases::TrueBrick,
        Phases::LongBrick,
        Phases::ShortBrick,
        Phases::EmptyBrick,
        Phases::DamagedBrick { place: 0, value: 65_535 },
    ];
    let image = Image::Flat([10, 200, 130]);
    for screen in choose::limit_screens() {
        for window in limit_windows() {
            for (input, output) in Length::ALL.into_iter().flat_map(|i| Length::ALL.map(|o| (i, o))) {
                for phases in phases {
                    let separation = 1;
                    compare(&ImageCase { screen, separation, window, image, phases, input, output });
                }
            }
        }
    }
}

/// Separations beyond the two, which are refused before all else (rule 14.3).
#[test]
fn separations_that_there_are_not() {
    for screen in choose::limit_screens() {
        for window in limit_windows() {
            for separation in [2, 100, u32::MAX] {
                let case = ImageCase::good(screen, separation, window, Image::Gradient);
                compare(&case);
                compare(&ImageCase { phases: Phases::ShortBrick, input: Length::OneMore, ..case });
            }
        }
    }
}

/// Each place of some bricks with another number, also where the window is empty.
#[test]
fn every_damaged_place_of_a_brick() {
    for [a, b, n, k, g] in [[4, 7, 70, 3, 5], [6, 7, 12, 2, 11], [5, 8, 3, 3, 1], [1, 2, 1, 1, 0]] {
        let screen = draw::record([a, b, n, k, g]);
        for place in 0..n {
            for value in [0, 1, n as u16 - 1, n as u16, 65_535] {
                for columns in [0, 2] {
                    let window = Window { x: 3, y: 2, columns, rows: 2 };
                    let phases = Phases::DamagedBrick { place, value };
                    let case = ImageCase::good(screen, 0, window, Image::Gradient);
                    compare(&ImageCase { phases, ..case });
                }
            }
        }
    }
}

/// Every slope up to ninths, admitted or not, with up to 24 cells and every number of subscreens.
#[test]
fn small_screens_on_small_windows() {
    let mut random = Random::new(31);
    let slopes = (2..=9).flat_map(|b| (1..b).map(move |a| (a, b)));
    for (a, b) in slopes {
        for n in 1..=24 {
            for k in 1..=n.min(16) {
                let screen = draw::record([a, b, n, k, random.between(0, n - 1)]);
                let window = choose::window(&mut random, 20, 12);
                let case = ImageCase::good(screen, random.between(0, 1), window, Image::draw(&mut random));
                compare(&case);
                compare(&ImageCase { phases: Phases::TrueBrick, ..case });
            }
        }
    }
}

/// So many rounds from a seed: in each, a case for every pair of most columns and rows.
fn compare_rounds(seed: u64, rounds: u32, most: &[(u32, u32)]) {
    let mut random = Random::new(seed);
    for _ in 0..rounds {
        for &(columns, rows) in most {
            let case = draw_case(&mut random, columns, rows);
            compare_both(&mut random, case);
        }
    }
}

/// Any screens on windows and images of all sorts.
#[test]
fn any_screens_on_many_windows() {
    compare_rounds(32, 80_000, &[(60, 40)]);
}

/// Any screens on long rows and on high columns.
#[test]
fn any_screens_on_wide_and_tall_windows() {
    compare_rounds(33, 2_000, &[(9000, 3), (3, 9000)]);
}

/// One row, and one column, of the whole sheet.
#[test]
fn windows_across_the_whole_sheet() {
    let mut random = Random::new(34);
    for _ in 0..6 {
        for (columns, rows) in [(65_536, 1), (1, 65_536), (65_536, 0), (0, 65_536)] {
            let window = Window { x: 0, y: 0, columns, rows };
            let screen = draw::screen(&mut random);
            let image = Image::draw(&mut random);
            let case = ImageCase::good(screen, random.between(0, 1), window, image);
            compare_both(&mut random, case);
        }
    }
}

/// Half a million cells at a time.
#[test]
fn large_images() {
    let mut random = Random::new(35);
    for _ in 0..24 {
        let screen = draw::screen(&mut random);
        let (x, y) = (random.between(0, 64_536), random.between(0, 64_536));
        let window = Window { x, y, columns: 1000, rows: 500 };
        let image = Image::draw(&mut random);
        let case = ImageCase::good(screen, random.between(0, 1), window, image);
        compare(&case);
        compare(&ImageCase { phases: Phases::TrueBrick, ..case });
    }
}
