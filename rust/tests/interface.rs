//! The safe interface: every refusal arrives as its own case, and every call hands on what it is given.

use cavzemil::{
    charge, pack, unpack, Brick, Colorant, Inks, Record, Refusal, Screen, Separation, Window, Xyz,
};
use cavzemil_plain as plain;

/// The record of a screen that is admitted; no two of its numbers are equal.
const RECORD: Record = Record { a: 4, b: 7, n: 70, k: 3, g: 5, columns: 35, rows: 2, shift: 14 };

/// The same screen for the plain implementation.
const PLAIN: plain::Screen = plain::Screen { a: 4, b: 7, n: 70, k: 3, g: 5, columns: 35, rows: 2, shift: 14 };

/// The screen of that record.
fn screen() -> Screen {
    Screen::new(4, 7, 70, 3, 5).expect("the screen is admitted")
}

/// A window of one cell at the sheet's corner.
const LONE: Window = Window { x: 0, y: 0, columns: 1, rows: 1 };

/// Ink values of which no two are equal.
const INKS: Inks = Inks { c: 51, m: 102, y: 204 };

/// Fails unless a refusal is the expected one, with this number in its words.
fn check<T>(answer: Result<T, Refusal>, expected: Refusal, number: u32) {
    let found = answer.err().expect("the call is refused");
    assert_eq!((found, found.number()), (expected, number));
    assert!(found.to_string().ends_with(&format!("(refusal {number})")), "{found}");
}

/// Rules 11.5 to 11.13 and rules 11.15 to 11.19.
#[test]
fn every_refusal_has_its_number() {
    check(Screen::new(7, 7, 70, 3, 5), Refusal::Slope, 1);
    check(Screen::new(4, 7, 4097, 3, 5), Refusal::CellCount, 2);
    check(Screen::new(4, 7, 70, 17, 5), Refusal::Subscreens, 3);
    check(Screen::new(4, 7, 70, 3, 70), Refusal::Offset, 4);
    check(screen().phase_at(65_536, 0), Refusal::OffSheet, 5);
    check(screen().cell_at(Separation::Demichel, 0, 65_536, INKS), Refusal::OffSheet, 5);
    check(screen().render(Separation::Demichel, LONE, &[0; 4], &mut [0]), Refusal::InputLength, 6);
    check(screen().render(Separation::Demichel, LONE, &[0; 3], &mut []), Refusal::OutputLength, 7);
    check(screen().fill_brick(&mut [0; 69]), Refusal::Brick, 8);
    let short = screen().render_brick(Separation::Demichel, LONE, &[0; 3], &[0; 69], &mut [0]);
    check(short, Refusal::Brick, 8);
    check(pack(1, 1, &[8], &mut [0; 8]), Refusal::Plates, 9);
    check(unpack(1, 1, &[64, 0, 0, 0, 0, 0, 0, 0], &mut [0]), Refusal::Plates, 9);
    let mut primaries = [Xyz { x: 1.0, y: 2.0, z: 3.0 }; 8];
    primaries[6].z = f64::NAN;
    let bad = screen().predict(Separation::Kueppers, INKS, &primaries);
    check(bad, Refusal::Primary(Colorant::Black), 11);
    check(charge([0; 8], &[0; 7]), Refusal::InputLength, 6);
    check(charge([0, 0, 0, 0, 0, 0, 0, 1_000_001], &[0; 8]), Refusal::Price, 12);
    check(charge([0; 8], &[]), Refusal::Job, 13);
    let short = screen().predict_cellular(Separation::Kueppers, INKS, &[0.0; 764]);
    check(short, Refusal::PrimariesLength, 14);
    check(Screen::try_from(Record { shift: 21, ..RECORD }), Refusal::Stored, 15);
}

/// Rules 17.3 and 17.4: each refusal of a replacement; the screen stays as it was.
#[test]
fn every_refusal_of_a_replacement_arrives() {
    let screen = screen();
    check(screen.with_offset(70), Refusal::Offset, 4);
    check(screen.with_subscreens(0), Refusal::Subscreens, 3);
    check(screen.with_subscreens(17), Refusal::Subscreens, 3);
    check(screen.with_cells(0), Refusal::CellCount, 2);
    check(screen.with_cells(4097), Refusal::CellCount, 2);
    check(screen.with_cells(2), Refusal::Subscreens, 3);
    check(screen.with_cells(5), Refusal::Offset, 4);
    assert_eq!(Record::from(screen), RECORD);
}

/// Rule 1.6: a filed record is tested by 1 to 4, each with all that come after it, and then by 15.
#[test]
fn every_refusal_of_a_record_arrives() {
    let filed = |record: Record| Screen::try_from(record);
    let damaged = Record { columns: 0, rows: 0, shift: 0, ..RECORD };
    check(filed(Record { a: 7, n: 0, k: 17, g: 70, ..damaged }), Refusal::Slope, 1);
    check(filed(Record { n: 0, k: 17, g: 70, ..damaged }), Refusal::CellCount, 2);
    check(filed(Record { k: 17, g: 70, ..damaged }), Refusal::Subscreens, 3);
    check(filed(Record { g: 70, ..damaged }), Refusal::Offset, 4);
    check(filed(damaged), Refusal::Stored, 15);
    check(filed(Record { columns: 36, ..RECORD }), Refusal::Stored, 15);
    check(filed(Record { rows: 1, ..RECORD }), Refusal::Stored, 15);
    check(filed(Record { shift: 49, ..RECORD }), Refusal::Stored, 15);
    check(filed(Record { n: 105, ..RECORD }), Refusal::Stored, 15);
}

/// Rules 17.2 and 17.5.
#[test]
fn screens_are_made_replaced_and_filed() {
    assert_eq!(Record::from(screen()), RECORD);
    assert_eq!(Screen::try_from(RECORD), Ok(screen()));
    let filed = |screen: Result<Screen, Refusal>| screen.map(Record::from);
    assert_eq!(filed(screen().with_offset(69)), Ok(Record { g: 69, ..RECORD }));
    assert_eq!(filed(screen().with_subscreens(16)), Ok(Record { k: 16, ..RECORD }));
    let replaced = Record { n: 105, columns: 105, rows: 1, shift: 77, ..RECORD };
    assert_eq!(filed(screen().with_cells(105)), Ok(replaced));
}

/// Rule 1.1.
#[test]
fn every_number_of_a_screen_is_told() {
    let s = screen();
    assert_eq!([s.a(), s.b(), s.n(), s.k(), s.g()], [4, 7, 70, 3, 5]);
    assert_eq!([s.columns(), s.rows(), s.shift()], [35, 2, 14]);
}

/// Rule 16.8: each refusal of a cellular prediction, with all that come after it.
#[test]
fn every_refusal_of_a_cellular_prediction_arrives() {
    let call = |primaries: &[f64]| screen().predict_cellular(Separation::Demichel, INKS, primaries);
    check(call(&[-1.0; 24]), Refusal::PrimariesLength, 14);
    for set in 1..=255 {
        let mut primaries = [200.0; 765];
        primaries[3 * usize::from(set) - 1..].fill(-1.0);
        check(call(&primaries), Refusal::PrimarySet(set), 11);
    }
}

/// Rule 16.2: a refusal names the colorants of its set.
#[test]
fn sets_are_told_by_their_colorants() {
    let words = |set| Refusal::PrimarySet(set).to_string();
    assert_eq!(words(128), "a value of set 128 (white) is not 0 to 200 (refusal 11)");
    assert_eq!(words(42), "a value of set 42 (magenta, blue, red) is not 0 to 200 (refusal 11)");
    for set in 1..=255 {
        assert_eq!(Colorant::of_set(set).map(|colorant| 1 << colorant.number()).sum::<u8>(), set);
    }
}

/// Rule 4.2.
#[test]
fn every_colorant_stands_at_its_number() {
    for (number, colorant) in Colorant::ALL.iter().enumerate() {
        assert_eq!(usize::from(colorant.number()), number);
    }
}

/// Rule 11.12: a wrong phase is refused as a short buffer is.
#[test]
fn a_wrong_phase_is_refused_by_the_renderer() {
    let wrong = screen().render_brick(Separation::Demichel, LONE, &[0; 3], &[0; 70], &mut [0]);
    check(wrong, Refusal::Brick, 8);
}

/// Rule 19.2.
#[test]
fn screens_are_moved() {
    let corners =
        [(0, 0), (1, 0), (0, 1), (100_000, 70_000), (u64::MAX, 0), (0, u64::MAX), (1 << 63, u64::MAX)];
    for (x, y) in corners {
        let Record { g, .. } = Record::from(screen().moved(x, y));
        assert_eq!(g, plain::moved(PLAIN, x, y).screen.g, "to ({x}, {y})");
        assert_eq!(screen().moved(x, y), screen().with_offset(g).expect("the offset is below N"));
    }
}

#[test]
fn places_bricks_and_counts_are_handed_on() {
    assert_eq!(screen().phase_at(9, 4), Ok(plain::phase_at(PLAIN, 9, 4).phase));
    assert_eq!(screen().brick(), Brick { columns: 35, rows: 2, shift: 14 });
    let (mut brick, mut expected) = ([0; 70], [0; 70]);
    assert_eq!(screen().fill_brick(&mut brick), Ok(()));
    plain::fill_brick(PLAIN, &mut expected);
    assert_eq!(brick, expected);
    for separation in [Separation::Demichel, Separation::Kueppers] {
        let counts = plain::counts_of(PLAIN, separation.number(), [INKS.c, INKS.m, INKS.y]);
        assert_eq!(screen().counts(separation, INKS), counts.of);
    }
}

#[test]
fn cells_are_handed_on() {
    for (x, y) in (0..35).flat_map(|x| (0..2).map(move |y| (x, y))) {
        for separation in [Separation::Demichel, Separation::Kueppers] {
            let cell = plain::cell_at(PLAIN, separation.number(), x, y, [INKS.c, INKS.m, INKS.y]);
            let colorant = Colorant::ALL[cell.colorant as usize];
            assert_eq!(screen().cell_at(separation, x, y, INKS), Ok(colorant));
        }
    }
}

#[test]
fn predictions_are_handed_on() {
    let primaries = [0, 1, 2, 3, 4, 5, 6, 7].map(|colorant| {
        let base = 20.3 * f64::from(colorant);
        Xyz { x: base + 1.1, y: base + 2.2, z: base + 3.3 }
    });
    let values: Vec<f64> = primaries.iter().flat_map(|xyz| [xyz.x, xyz.y, xyz.z]).collect();
    let [x, y, z] = plain::predict(PLAIN, 1, [INKS.c, INKS.m, INKS.y], &values).xyz;
    assert_eq!(screen().predict(Separation::Kueppers, INKS, &primaries), Ok(Xyz { x, y, z }));
}

#[test]
fn cellular_predictions_are_handed_on() {
    let primaries: Vec<f64> = (0..765).map(|place| f64::from(place * 317 % 2000) / 10.0).collect();
    for separation in [Separation::Demichel, Separation::Kueppers] {
        let inks = [INKS.c, INKS.m, INKS.y];
        let expected = plain::predict_cellular(PLAIN, separation.number(), inks, &primaries);
        assert_eq!(expected.refusal, 0);
        let [x, y, z] = expected.xyz;
        assert_eq!(screen().predict_cellular(separation, INKS, &primaries), Ok(Xyz { x, y, z }));
    }
}

#[test]
fn charges_are_handed_on() {
    let prices = [1, 20, 300, 4_000, 50_000, 600_000, 1_000_000, 7];
    let tallies: Vec<u64> = (1..=24).map(|place| place * 1_234_567).collect();
    let expected = plain::charge_of(prices, &tallies);
    assert_eq!(expected.refusal, 0);
    assert_eq!(charge(prices, &tallies), Ok(expected.cents));
}
