//! A null pointer with length 0 is an empty slice (rule 14.2).

use crate::subject::{c_screen, c_window};
use cavzemil_plain::{Screen, Window};
use cavzemil_sys::ffi;
use cavzemil_testing::{DEMICHEL, KUEPPERS};
use std::ptr::{null, null_mut};

/// A screen that is admitted.
const SCREEN: Screen = Screen { a: 4, b: 7, n: 70, k: 2, g: 3, columns: 35, rows: 2, shift: 14 };

/// A screen whose record is false.
const FALSE: Screen = Screen { shift: 21, ..SCREEN };

/// Renders a window from and to null pointers by both renderers, the second with a null brick.
fn refusals(screen: Screen, window: Window) -> (u32, u32) {
    let (s, w) = (c_screen(screen), c_window(window));
    let worked = unsafe { ffi::cavzemil_render(s, DEMICHEL, w, null(), 0, null_mut(), 0) };
    let read = unsafe { ffi::cavzemil_render_brick(s, KUEPPERS, w, null(), 0, null(), 0, null_mut(), 0) };
    assert_eq!((worked.tallies, read.tallies), ([0; 8], [0; 8]));
    (worked.refusal, read.refusal)
}

#[test]
fn empty_windows_take_null_pointers() {
    let empty = Window { x: 65_536, y: 0, columns: 0, rows: 9 };
    assert_eq!(refusals(SCREEN, empty), (0, 8));
    assert_eq!(refusals(SCREEN, Window { columns: 1, ..empty }), (5, 5));
    assert_eq!(refusals(SCREEN, Window { x: 0, columns: 1, ..empty }), (6, 6));
    assert_eq!(refusals(Screen { k: 17, ..SCREEN }, empty), (3, 3));
    assert_eq!(refusals(FALSE, empty), (15, 15));
    assert_eq!(refusals(FALSE, Window { columns: 1, ..empty }), (15, 15));
}

#[test]
fn empty_windows_take_a_true_brick() {
    let mut brick = [0u16; 70];
    let window = c_window(Window { x: 1, y: 2, columns: 3, rows: 0 });
    let s = c_screen(SCREEN);
    let (filled, read) = unsafe {
        (
            ffi::cavzemil_fill_brick(s, brick.as_mut_ptr(), 70),
            ffi::cavzemil_render_brick(s, DEMICHEL, window, null(), 0, brick.as_ptr(), 70, null_mut(), 0),
        )
    };
    assert_eq!((filled, read.refusal, read.tallies), (0, 0, [0; 8]));
}

#[test]
fn jobs_may_be_null() {
    let charge = |price| unsafe { ffi::cavzemil_charge_of(ffi::Prices { of: [price; 8] }, null(), 0) };
    assert_eq!(charge(1_000_000), ffi::Charge { refusal: 13, cents: 0 });
    assert_eq!(charge(1_000_001), ffi::Charge { refusal: 12, cents: 0 });
}

#[test]
fn bricks_plates_and_primaries_may_be_null() {
    let s = c_screen(SCREEN);
    assert_eq!(unsafe { ffi::cavzemil_fill_brick(s, null_mut(), 0) }, 8);
    assert_eq!(unsafe { ffi::cavzemil_pack(0, 9, null(), 0, null_mut(), 0) }, 0);
    assert_eq!(unsafe { ffi::cavzemil_unpack(9, 0, null(), 0, null_mut(), 0) }, 0);
    assert_eq!(unsafe { ffi::cavzemil_pack(1, 1, null(), 0, null_mut(), 0) }, 6);
    assert_eq!(unsafe { ffi::cavzemil_unpack(65_537, 0, null(), 0, null_mut(), 0) }, 5);
    assert_eq!(unsafe { ffi::cavzemil_predict(s, DEMICHEL, 1, 2, 3, null(), 0) }.refusal, 6);
    let s = c_screen(FALSE);
    assert_eq!(unsafe { ffi::cavzemil_fill_brick(s, null_mut(), 0) }, 15);
    assert_eq!(unsafe { ffi::cavzemil_predict(s, DEMICHEL, 1, 2, 3, null(), 0) }.refusal, 15);
}

#[test]
fn primaries_of_sets_may_be_null() {
    let refusal = |screen, separation| {
        let s = c_screen(screen);
        let answer = unsafe { ffi::cavzemil_predict_cellular(s, separation, 1, 2, 3, null(), 0) };
        assert_eq!((answer.set, [answer.x, answer.y, answer.z].map(f64::to_bits)), (0, [0; 3]));
        answer.refusal
    };
    assert_eq!(refusal(SCREEN, DEMICHEL), 14);
    assert_eq!(refusal(SCREEN, KUEPPERS), 14);
    assert_eq!(refusal(Screen { g: 70, ..SCREEN }, KUEPPERS), 4);
    assert_eq!(refusal(Screen { g: 70, ..SCREEN }, 2), 100);
    assert_eq!(refusal(FALSE, KUEPPERS), 15);
    assert_eq!(refusal(FALSE, 2), 100);
}
