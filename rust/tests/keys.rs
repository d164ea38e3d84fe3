//! Types as keys of maps: equal values find each other, and different ones do not. Some have an order or a default.

use cavzemil::{Brick, Colorant, Inks, Record, Refusal, Screen, Separation, Slope, Window, Xyz};
use std::collections::{BTreeMap, HashMap};
use std::hash::Hash;

/// Fails unless each of some values, all of them different, finds its own number in a map of them.
fn check_keys<K: Copy + Eq + Hash>(keys: &[K]) {
    let numbers: HashMap<K, usize> = keys.iter().copied().zip(0..).collect();
    let found: Vec<usize> = keys.iter().map(|key| numbers[key]).collect();
    assert_eq!(found, (0..keys.len()).collect::<Vec<_>>());
}

#[test]
fn screens_and_their_parts_are_keys() -> Result<(), Refusal> {
    let screen = Screen::new(4, 7, 105, 2, 0)?;
    let screens = [screen, screen.moved(1, 0), screen.with_cells(70)?, Screen::new(3, 7, 105, 2, 0)?];
    check_keys(&screens);
    check_keys(&screens.map(Record::from));
    check_keys(&[screen.brick(), screens[2].brick(), Brick { shift: 0, ..screen.brick() }]);
    check_keys(&[Slope::new(4, 7)?, Slope::new(3, 7)?, Slope::new(4, 9)?]);
    Ok(())
}

#[test]
fn what_calls_take_and_refuse_are_keys() {
    check_keys(&Colorant::ALL);
    check_keys(&Separation::ALL);
    check_keys(&[[0, 0, 1], [0, 1, 0], [1, 0, 0]].map(Inks::from));
    let window = Window::default();
    check_keys(&[window, Window { x: 1, ..window }, Window { rows: 1, ..window }]);
    let [red, black] = [Colorant::Red, Colorant::Black].map(Refusal::Primary);
    check_keys(&[Refusal::Slope, Refusal::InputLength, red, black, Refusal::PrimarySet(6)]);
}

/// Colorants and separations are ordered by their numbers, inks by c, then m, then y.
#[test]
fn ordered_types_are_keys_of_sorted_maps() {
    let colorants: BTreeMap<Colorant, u8> = Colorant::ALL.into_iter().rev().zip(0..).collect();
    assert!(colorants.into_keys().eq(Colorant::ALL));
    let separations: BTreeMap<Separation, u8> = Separation::ALL.into_iter().rev().zip(0..).collect();
    assert!(separations.into_keys().eq(Separation::ALL));
    let inks = [[0, 0, 255], [0, 1, 0], [0, 1, 1], [1, 0, 0]].map(Inks::from);
    let sorted: BTreeMap<Inks, u8> = inks.into_iter().rev().zip(0..).collect();
    assert!(sorted.into_keys().eq(inks));
}

#[test]
fn defaults_are_empty() {
    assert_eq!(Inks::default(), Inks { c: 0, m: 0, y: 0 });
    assert_eq!(Xyz::default(), Xyz { x: 0.0, y: 0.0, z: 0.0 });
    assert_eq!(Window::default(), Window { x: 0, y: 0, columns: 0, rows: 0 });
}
