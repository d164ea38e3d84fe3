//! Packing and unpacking, of whole and damaged content (rules 8.5 and 8.6).

use crate::case::{compare, differing, smaller_numbers, Case, Mismatch};
use crate::choose::Length;
use crate::guarded::{blank, Guarded};
use crate::subject::Compiled;
use cavzemil_plain::random::Random;
use cavzemil_testing::Subject;

/// Columns of small windows: fewer than a byte has bits, as many, and more.
const SMALL_WIDTHS: [u32; 5] = [1, 7, 8, 9, 17];

/// Columns and rows of large windows, as wide and as tall as they may be among them.
const LARGE_SIZES: [(u32, u32); 10] = [
    (65_536, 2),
    (2, 65_536),
    (65_535, 1),
    (65_535, 2),
    (1, 65_535),
    (1003, 501),
    (4096, 64),
    (65_536, 3),
    (3, 65_536),
    (1021, 257),
];

/// Which way a plate goes.
#[derive(Clone, Copy, Debug)]
enum Way {
    Pack,
    Unpack,
}

/// Both ways.
const WAYS: [Way; 2] = [Way::Pack, Way::Unpack];

/// An implementation's pack and its unpack.
type Calls = [fn(u32, u32, &[u8], &mut [u8]) -> u32; 2];

/// Those of both implementations.
const PLAIN: Calls = [cavzemil_plain::pack, cavzemil_plain::unpack];
const COMPILED: Calls = [Compiled::pack, Compiled::unpack];

/// A call of pack or unpack. The cells are drawn from a seed; then bits of the input are turned over, each
/// damage naming a place and a mask.
#[derive(Clone)]
struct PlateCase {
    way: Way,
    columns: u32,
    rows: u32,
    seed: u64,
    damage: Vec<(u32, u8)>,
    input: Length,
    output: Length,
}

impl PlateCase {
    /// A case of stated lengths and whole content.
    fn whole(way: Way, columns: u32, rows: u32, seed: u64) -> PlateCase {
        let (input, output) = (Length::Stated, Length::Stated);
        PlateCase { way, columns, rows, seed, damage: Vec::new(), input, output }
    }

    /// The stated lengths of input and output.
    fn stated(&self) -> (u128, u128) {
        let cells = u128::from(self.columns) * u128::from(self.rows);
        let planes = 8 * u128::from(self.rows) * u128::from(self.columns.div_ceil(8));
        match self.way {
            Way::Pack => (cells, planes),
            Way::Unpack => (planes, cells),
        }
    }

    /// The whole content: cells, or the planes that they pack to; none where memory has no room for it.
    fn content(&self) -> Vec<u8> {
        let cells = Length::Stated.places(u128::from(self.columns) * u128::from(self.rows));
        let mut random = Random::new(self.seed);
        let cells: Vec<u8> = (0..cells).map(|_| random.byte() % 8).collect();
        match self.way {
            Way::Pack => cells,
            Way::Unpack => {
                let mut planes = vec![0; Length::Stated.places(self.stated().0)];
                cavzemil_plain::pack(self.columns, self.rows, &cells, &mut planes);
                planes
            }
        }
    }

    /// The input as it is handed over: damaged, and of its own length.
    fn handed(&self) -> Vec<u8> {
        let mut handed = self.content();
        handed.resize(self.input.places(self.stated().0), 0);
        if !handed.is_empty() {
            for (place, mask) in &self.damage {
                let place = *place as usize % handed.len();
                handed[place] ^= mask;
            }
        }
        handed
    }

    /// The output as it is handed over.
    fn unwritten(&self) -> Guarded<u8> {
        blank(self.output.places(self.stated().1))
    }

    /// An implementation's answer, and the output that it leaves.
    fn answer(&self, [pack, unpack]: Calls, input: &[u8]) -> (u32, Guarded<u8>) {
        let call = match self.way {
            Way::Pack => pack,
            Way::Unpack => unpack,
        };
        let mut output = self.unwritten();
        (call(self.columns, self.rows, input, output.lent_mut()), output)
    }
}

impl Case for PlateCase {
    fn words(&self) -> String {
        let handed = self.handed();
        let first = &handed[..handed.len().min(64)];
        let output = self.output.places(self.stated().1);
        [
            format!("{:?} of {} columns and {} rows", self.way, self.columns, self.rows),
            format!("input of {} bytes, beginning {first:?}", handed.len()),
            format!("output of {output} bytes"),
        ]
        .join("\n  ")
    }

    fn mismatch(&self) -> Option<Mismatch> {
        let input = Guarded::new(&self.handed(), 128);
        let lent = input.clone();
        let (plain, expected) = self.answer(PLAIN, input.lent());
        let (compiled, found) = self.answer(COMPILED, lent.lent());
        differing(plain, compiled)
            .or_else(|| expected.mismatch(&found, "output"))
            .or_else(|| input.mismatch(&lent, "input"))
    }

    fn smaller(&self) -> Vec<PlateCase> {
        let mut cases: Vec<PlateCase> = smaller_numbers(self.columns)
            .map(|columns| PlateCase { columns, ..self.clone() })
            .chain(smaller_numbers(self.rows).map(|rows| PlateCase { rows, ..self.clone() }))
            .collect();
        for place in 0..self.damage.len() {
            let mut case = self.clone();
            case.damage.remove(place);
            cases.push(case);
        }
        cases
    }
}

/// Puts a damaged case to both implementations, and fails unless they answer 9 and write nothing (rules 11.3
/// and 11.13).
fn check_refused(case: &PlateCase) {
    compare(case);
    let (answer, output) = case.answer(PLAIN, &case.handed());
    let unwritten = case.unwritten().mismatch(&output, "output").is_none();
    assert!(answer == 9 && unwritten, "this is to be refused:\n{}", case.words());
}

/// Puts whole cells and their planes to both implementations, and fails unless the cells come back (rule
/// 8.7).
fn check_both_ways(columns: u32, rows: u32, seed: u64) {
    let [pack, unpack] = WAYS.map(|way| PlateCase::whole(way, columns, rows, seed));
    compare(&pack);
    compare(&unpack);
    let (answer, cells) = unpack.answer(PLAIN, &unpack.handed());
    assert!(answer == 0 && cells.lent() == pack.content(), "the cells do not come back:\n{}", unpack.words());
}

/// Sizes at the limit and beyond it, with every pair of lengths.
#[test]
fn limits_of_plates() {
    let sizes = [0, 1, 65_535, 65_536, 65_537, 1 << 31, u32::MAX];
    for way in WAYS {
        for (columns, rows) in sizes.into_iter().flat_map(|c| sizes.map(|r| (c, r))) {
            for (input, output) in Length::ALL.into_iter().flat_map(|i| Length::ALL.map(|o| (i, o))) {
                compare(&PlateCase { input, output, ..PlateCase::whole(way, columns, rows, 1) });
            }
        }
    }
}

/// Wrong lengths and bad content, of which the lengths are refused.
#[test]
fn lengths_and_damage_at_once() {
    for way in WAYS {
        for (input, output) in Length::ALL.into_iter().flat_map(|i| Length::ALL.map(|o| (i, o))) {
            for columns in 0..=17 {
                let damage = vec![(0, 255), (3, 128)];
                compare(&PlateCase { damage, input, output, ..PlateCase::whole(way, columns, 3, 2) });
            }
        }
    }
}

/// Whole plates of every narrow width.
#[test]
fn every_narrow_width() {
    for (columns, rows) in (0..=70).flat_map(|columns| (0..=3).map(move |rows| (columns, rows))) {
        check_both_ways(columns, rows, u64::from(columns * 4 + rows));
    }
}

/// Each bit of small plates turned over by itself, padding bits too. A cell's three lowest bits give another
/// colorant; all others are refused.
#[test]
fn every_bit_of_small_plates_turned_over() {
    for way in WAYS {
        for (columns, rows) in (0..=17).flat_map(|columns| (0..=2).map(move |rows| (columns, rows))) {
            let whole = PlateCase::whole(way, columns, rows, u64::from(columns * 3 + rows));
            compare(&whole);
            for place in 0..whole.stated().0 as u32 {
                for bit in 0..8 {
                    let case = PlateCase { damage: vec![(place, 1 << bit)], ..whole.clone() };
                    match way {
                        Way::Pack if bit < 3 => compare(&case),
                        _ => check_refused(&case),
                    }
                }
            }
        }
    }
}

/// Every two and every three bits of a lone place turned over. Two may move a pixel to another plane; after
/// three, a pixel or padding is always wrong.
#[test]
fn bits_of_a_lone_place_turned_over() {
    let bit = |number: u32| (number / 8, 1 << (number % 8));
    for columns in [1, 5, 8] {
        let whole = PlateCase::whole(Way::Unpack, columns, 1, 44);
        for (second, first) in (0..64).flat_map(|second| (0..second).map(move |first| (second, first))) {
            compare(&PlateCase { damage: vec![bit(first), bit(second)], ..whole.clone() });
            for third in 0..first {
                let damage = vec![bit(first), bit(second), bit(third)];
                check_refused(&PlateCase { damage, ..whole.clone() });
            }
        }
    }
}

/// The damage that turns a bit of a place over, in each plane where it is set or in each where it is not.
fn turned(planes: &[u8], place: usize, mask: u8, set: bool) -> Vec<(u32, u8)> {
    let bytes = (place..planes.len()).step_by(planes.len() / 8);
    bytes.filter(|byte| (planes[*byte] & mask != 0) == set).map(|byte| (byte as u32, mask)).collect()
}

/// Damages of a place that one test alone would miss. The first pixel, or the first two, are set in more
/// planes: the union stays, and the sum grows by 256, which its lowest eight bits do not show. Or a pixel is
/// in no plane, and the bit after it in two more, which keeps the sum, or in one more, which keeps how many
/// bits are set.
fn hidden_damages(planes: &[u8], place: usize) -> Vec<Vec<(u32, u8)>> {
    let cleared = |mask| turned(planes, place, mask, true);
    let added = |mask, times| turned(planes, place, mask, false)[..times].to_vec();
    let mut damages = vec![added(128, 2), [added(128, 1), added(64, 2)].concat()];
    for mask in (1..8).map(|bit| 1 << bit) {
        damages.extend([2, 1].map(|times| [cleared(mask), added(mask / 2, times)].concat()));
    }
    damages
}

/// Such damages at each place by itself, of small planes and of some that are wide.
#[test]
fn damages_that_a_sum_or_a_union_hides() {
    for columns in SMALL_WIDTHS.into_iter().chain([531]) {
        let whole = PlateCase::whole(Way::Unpack, columns, 2, 45);
        let planes = whole.content();
        for damage in (0..planes.len() / 8).flat_map(|place| hidden_damages(&planes, place)) {
            check_refused(&PlateCase { damage, ..whole.clone() });
        }
    }
}

/// A row's first pixel in no plane, and its padding set in plane 0, which makes the last place look full: as
/// many places of the row have eight pixels as should.
#[test]
fn padding_set_for_a_missing_pixel() {
    for columns in (9..=23).filter(|columns| columns % 8 != 0).chain([531]) {
        let whole = PlateCase::whole(Way::Unpack, columns, 2, 46);
        let (planes, bytes) = (whole.content(), columns.div_ceil(8));
        for first in [0, bytes] {
            let padding = vec![(first + bytes - 1, 255 >> (columns % 8))];
            let damage = [turned(&planes, first as usize, 128, true), padding].concat();
            check_refused(&PlateCase { damage, ..whole.clone() });
        }
    }
}

/// Plates of any content, whole or damaged at some places.
#[test]
fn any_plates() {
    let mut random = Random::new(41);
    for _ in 0..80_000 {
        let way = random.one_of(&WAYS);
        let (columns, rows) = (random.between(0, 70), random.between(0, 20));
        let damages = random.one_of(&[0, 0, 0, 0, 1, 1, 2, 9]);
        let damage = (0..damages).map(|_| (random.bits() as u32, 1 << random.between(0, 7))).collect();
        let (input, output) = (Length::draw(&mut random), Length::draw(&mut random));
        let whole = PlateCase::whole(way, columns, rows, random.bits());
        compare(&PlateCase { damage, input, output, ..whole });
    }
}

/// A bit turned over in two planes at once, so that the pixel often stays in exactly one.
#[test]
fn pixels_moved_to_another_plane() {
    let mut random = Random::new(42);
    for _ in 0..20_000 {
        let (columns, rows) = (random.between(1, 40), random.between(1, 9));
        let plane = rows * columns.div_ceil(8);
        let (place, mask) = (random.between(0, plane - 1), 1 << random.between(0, 7));
        let damage = (0..2).map(|_| (place + plane * random.between(0, 7), mask)).collect();
        compare(&PlateCase { damage, ..PlateCase::whole(Way::Unpack, columns, rows, random.bits()) });
    }
}

/// Large plates, whole.
#[test]
fn large_plates() {
    for (columns, rows) in LARGE_SIZES {
        check_both_ways(columns, rows, 5);
    }
}

/// Large plates damaged at their end: in the last cell, and in the last bit of each plane, which may be
/// padding.
#[test]
fn large_plates_damaged_at_their_end() {
    for (columns, rows) in LARGE_SIZES {
        let [pack, unpack] = WAYS.map(|way| PlateCase::whole(way, columns, rows, 6));
        check_refused(&PlateCase { damage: vec![(columns * rows - 1, 8)], ..pack });
        for planes in 1..=8 {
            let last = planes * rows * columns.div_ceil(8) - 1;
            check_refused(&PlateCase { damage: vec![(last, 1)], ..unpack.clone() });
        }
    }
}
