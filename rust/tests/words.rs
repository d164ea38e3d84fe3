//! Types read from and turned into texts, numbers and arrays.

use cavzemil::{Colorant, Inks, ParseSlopeError, Refusal, Screen, Separation, Slope, Xyz};

/// Rule 4.2: each colorant has its number, and no other number has one. They are ordered by it.
#[test]
fn every_colorant_stands_at_its_number() {
    for (number, colorant) in (0..).zip(Colorant::ALL) {
        assert_eq!((colorant.number(), u8::from(colorant)), (number, number));
        assert_eq!(Colorant::try_from(number), Ok(colorant));
    }
    assert!(Colorant::ALL.is_sorted());
    assert!((8..=255).all(|number| Colorant::try_from(number).is_err()));
}

#[test]
fn colorants_are_told_by_their_names() {
    let names = Colorant::ALL.map(|colorant| colorant.to_string());
    assert_eq!(names, ["cyan", "magenta", "yellow", "blue", "green", "red", "black", "white"]);
    assert_eq!(format!("{:<8}|{:>6}", Colorant::Red, Colorant::Blue), "red     |  blue");
}

/// Rules 10.4 and 14.3.
#[test]
fn separations_have_names_and_numbers() {
    for (number, name) in (0..).zip(["demichel", "kueppers"]) {
        let separation: Separation = name.parse().expect("it is a separation's name");
        assert_eq!((separation.number(), separation.to_string().as_str()), (number, name));
    }
    for text in ["", "Demichel", " demichel", "demichel\n", "kuppers", "0"] {
        assert!(text.parse::<Separation>().is_err(), "{text:?}");
    }
}

/// Rule 1.2: slopes are those of screens, each is read as it is written, and makes the screen of its numbers.
#[test]
fn slopes_are_those_of_screens() {
    let mut admitted = 0;
    for (a, b) in (0..=66).flat_map(|a| (0..=66).map(move |b| (a, b))) {
        let slope = Slope::new(a, b);
        assert_eq!(slope, Screen::new(a, b, 70, 3, 5).map(Screen::slope));
        let read = format!("{a}/{b}").parse::<Slope>();
        assert_eq!(read, slope.map_err(ParseSlopeError::Refused));
        if let Ok(slope) = slope {
            admitted += 1;
            assert_eq!((slope.a(), slope.b(), slope.to_string()), (a, b, format!("{a}/{b}")));
            assert_eq!(Screen::from_slope(slope, 70, 3, 5), Screen::new(a, b, 70, 3, 5));
        }
    }
    assert_eq!(admitted, 1_259, "slopes up to 63/64 without a common divisor");
}

#[test]
fn texts_of_another_form_are_no_slopes() {
    for text in ["", "4", "/", "4/", "/7", "4/7/1", "4 /7", "4/ 7", "-4/7", "4:7", "0x4/7"] {
        assert_eq!(text.parse::<Slope>(), Err(ParseSlopeError::Form), "{text:?}");
    }
}

/// Digits of any number are of the form, also where they are too large for the library.
#[test]
fn numbers_that_are_too_large_are_refused() {
    for text in
        ["4294967295/7", "4294967296/7", "4/4294967296", "4294967295/4294967296", "4/99999999999999999999"]
    {
        let refused = text.parse::<Slope>().unwrap_err();
        assert_eq!(refused, ParseSlopeError::Refused(Refusal::Slope), "{text}");
        assert_eq!(refused.to_string(), Refusal::Slope.to_string());
    }
}

#[test]
fn inks_and_colours_are_arrays_and_back() {
    assert_eq!(Inks::from([1, 2, 3]), Inks { c: 1, m: 2, y: 3 });
    assert_eq!(<[u8; 3]>::from(Inks { c: 1, m: 2, y: 3 }), [1, 2, 3]);
    assert_eq!(Xyz::from([1.0, 2.0, 3.0]), Xyz { x: 1.0, y: 2.0, z: 3.0 });
    assert_eq!(<[f64; 3]>::from(Xyz { x: 1.0, y: 2.0, z: 3.0 }), [1.0, 2.0, 3.0]);
}
