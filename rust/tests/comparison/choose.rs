//! Drawing what calls are handed: spoiled screens, separations, windows, lengths.

use crate::case::mended;
use cavzemil_plain::random::Random;
use cavzemil_plain::{Screen, Window};
use cavzemil_testing::draw;
use cavzemil_testing::false_records::other_records;

/// Numbers at and beside the limits of a screen.
const LIMITS: [u32; 15] = [0, 1, 2, 15, 16, 17, 63, 64, 65, 4095, 4096, 4097, 65_535, 65_536, u32::MAX];

/// A screen: mostly admitted, else with one or two of its numbers replaced by limits, with the brick that
/// these give or the one before, and seldom with other stored numbers.
pub fn screen(random: &mut Random) -> Screen {
    let mut screen = draw::screen(random);
    if random.once_in(8) {
        spoil(random, &mut screen);
        if random.once_in(2) {
            spoil(random, &mut screen);
        }
        if random.once_in(2) {
            screen = mended(screen);
        }
    }
    if random.once_in(16) {
        screen = spoil_stored(random, screen);
    }
    screen
}

/// Replaces one or more of the stored numbers.
fn spoil_stored(random: &mut Random, screen: Screen) -> Screen {
    let bit = 1 << random.between(0, 31);
    let turned = [
        Screen { columns: screen.columns ^ bit, ..screen },
        Screen { rows: screen.rows ^ bit, ..screen },
        Screen { shift: screen.shift ^ bit, ..screen },
    ];
    let (turned, other) = (random.one_of(&turned), random.one_of(&other_records(screen)));
    random.one_of(&[turned, other])
}

/// Replaces one of a screen's numbers by a limit.
fn spoil(random: &mut Random, screen: &mut Screen) {
    let limit = random.one_of(&LIMITS);
    match random.between(0, 6) {
        0 => screen.a = limit,
        1 => screen.b = limit,
        2 => screen.n = limit,
        3 => screen.k = limit,
        4 => screen.g = limit,
        5 => screen.k = screen.n.saturating_add(1),
        _ => screen.g = screen.n,
    }
}

/// Screens at each limit and one beyond it, several limits passed at once among them, and records of all sorts
/// that are false.
pub fn limit_screens() -> Vec<Screen> {
    let numbers = [
        [4, 7, 105, 2, 0],
        [1, 2, 1, 1, 0],
        [63, 64, 4096, 16, 4095],
        [0, 7, 105, 2, 0],
        [7, 7, 105, 2, 0],
        [1, 1, 105, 2, 0],
        [0, 0, 105, 2, 0],
        [7, 4, 105, 2, 0],
        [4, 8, 105, 2, 0],
        [62, 64, 105, 2, 0],
        [63, 65, 105, 2, 0],
        [64, 65, 105, 2, 0],
        [4, u32::MAX, 105, 2, 0],
        [u32::MAX, u32::MAX, 105, 2, 0],
        [4, 7, 0, 1, 0],
        [4, 7, 4097, 1, 0],
        [4, 7, u32::MAX, 1, 0],
        [4, 7, 105, 0, 0],
        [4, 7, 105, 17, 0],
        [4, 7, 105, u32::MAX, 0],
        [4, 7, 5, 5, 4],
        [4, 7, 5, 6, 0],
        [4, 7, 70, 1, 69],
        [4, 7, 70, 1, 70],
        [4, 7, 70, 1, u32::MAX],
        [4, 8, 0, 0, 0],
        [4, 7, 0, 0, 0],
        [4, 7, 5, 6, 5],
        [4, 8, 4097, 17, 5000],
        [u32::MAX; 5],
    ];
    numbers.into_iter().map(draw::record).chain(false_records()).collect()
}

/// Screens that store other numbers than those of their brick, four of them beyond another limit too.
fn false_records() -> Vec<Screen> {
    let s = draw::record([4, 7, 70, 2, 3]);
    let mut screens = other_records(s);
    let s = Screen { columns: 36, rows: 3, shift: 21, ..s };
    screens.extend([
        Screen { a: 7, ..s },
        Screen { n: 4097, ..s },
        Screen { k: 71, ..s },
        Screen { g: 70, ..s },
    ]);
    screens
}

/// A separation number, seldom one that there is not.
pub fn separation(random: &mut Random) -> u32 {
    if random.once_in(40) {
        random.one_of(&[2, 3, 11, 100, 256, 65_536, u32::MAX])
    } else {
        random.between(0, 1)
    }
}

/// A corner for so many columns or rows: the sheet's first, its last that fits, any, seldom one beyond.
fn corner(random: &mut Random, length: u32) -> u32 {
    let last = 65_536 - length;
    match random.between(0, 15) {
        0..=2 => 0,
        3..=5 => last,
        6 => last + 1,
        _ => random.between(0, last),
    }
}

/// A window of at most so many columns and rows at a corner, an edge or within the sheet; seldom beyond.
pub fn window(random: &mut Random, columns: u32, rows: u32) -> Window {
    let (columns, rows) = (random.between(0, columns), random.between(0, rows));
    Window { x: corner(random, columns), y: corner(random, rows), columns, rows }
}

/// A column or row number, at the sheet's ends more often than elsewhere, seldom beyond.
pub fn coordinate(random: &mut Random) -> u32 {
    match random.between(0, 9) {
        0 => 0,
        1 => 65_535,
        2 => random.one_of(&[65_536, 65_537, 131_072, 1 << 31, u32::MAX]),
        _ => random.between(0, 65_535),
    }
}

/// A length of lent memory, told by the stated one.
#[derive(Clone, Copy, Debug)]
pub enum Length {
    Stated,
    OneLess,
    OneMore,
    Empty,
}

impl Length {
    /// All lengths.
    pub const ALL: [Length; 4] = [Length::Stated, Length::OneLess, Length::OneMore, Length::Empty];

    /// A length, mostly the stated one.
    pub fn draw(random: &mut Random) -> Length {
        if random.once_in(20) {
            random.one_of(&Length::ALL)
        } else {
            Length::Stated
        }
    }

    /// The length in places, given the stated one; where memory has no room for that, it is 0 instead,
    /// which a sum that ran over might be mistaken for.
    pub fn places(self, stated: u128) -> usize {
        let room = if stated <= 1 << 24 { stated as usize } else { 0 };
        match self {
            Length::Stated => room,
            Length::OneLess => room.saturating_sub(1),
            Length::OneMore => room + 1,
            Length::Empty => 0,
        }
    }
}
