//! What is left unread. By charge_of: all of a run that has too many windows (rule 15.3) and, beyond the
//! rule, of one that its length or a price refuses, and what stands before and after a run that is charged.
//! By predict_cellular, beyond the rules: all of a run of another length than 765, and what stands before and
//! after one of 765.
//!
//! Such memory may not be read here: whoever does is stopped by the system with signal 11, and this test
//! program with it. So it is a program of its own.

use cavzemil::ffi::{cavzemil_charge_of, cavzemil_predict_cellular, Cellular, Charge, Prices};
use cavzemil::{charge, Inks, Record, Screen, Separation, Xyz};
use cavzemil_plain::{charge_of, predict_cellular, random::Random};
use std::ffi::{c_int, c_long, c_void};
use std::ptr::null_mut;
use std::slice;

extern "C" {
    /// Asks the system for memory.
    fn mmap(
        at: *mut c_void,
        bytes: usize,
        access: c_int,
        sort: c_int,
        file: c_int,
        from: c_long,
    ) -> *mut c_void;

    /// Changes who may read and write memory.
    fn mprotect(at: *mut c_void, bytes: usize, access: c_int) -> c_int;

    /// Gives memory back.
    fn munmap(at: *mut c_void, bytes: usize) -> c_int;
}

/// Neither to be read nor written, and both; Linux's numbers on x86-64.
const NO_ACCESS: c_int = 0;
const READ_AND_WRITE: c_int = 3;

/// Memory that is private, in no file and not kept ready.
const PRIVATE_MEMORY: c_int = 0x02 + 0x20 + 0x4000;

/// The tallies, or the values of primaries, of a page of memory; both have 8 bytes.
const PAGE: usize = 4096 / 8;

/// Memory for so many tallies or values, none of which may be read.
struct Closed<T> {
    start: *mut T,
    length: usize,
}

impl<T> Closed<T> {
    /// Asks for it.
    fn new(length: usize) -> Closed<T> {
        assert_eq!(size_of::<T>(), 8);
        // SAFETY: the system chooses where new memory stands.
        let start = unsafe { mmap(null_mut(), 8 * length, NO_ACCESS, PRIVATE_MEMORY, -1, 0) };
        assert!(start as isize != -1, "the system gives no room for {length} numbers");
        Closed { start: start.cast(), length }
    }

    /// Opens a part of whole pages, to be read and written.
    fn open(&mut self, page: usize, pages: usize) -> &mut [T] {
        assert!((page + pages) * PAGE <= self.length);
        // SAFETY: the part lies within this memory, is 0 at first, and no other part is open.
        unsafe {
            let start = self.start.add(page * PAGE);
            assert_eq!(mprotect(start.cast(), 8 * pages * PAGE, READ_AND_WRITE), 0);
            slice::from_raw_parts_mut(start, pages * PAGE)
        }
    }
}

impl<T> Drop for Closed<T> {
    /// Gives it back.
    fn drop(&mut self) {
        // SAFETY: the memory is this one's own.
        unsafe { munmap(self.start.cast(), 8 * self.length) };
    }
}

/// The longest run that is lent unread.
const LONGEST: usize = 1 << 36;

/// The answer for the first so many tallies of closed memory.
fn charge_unread(memory: &Closed<u64>, prices: [u32; 8], length: usize) -> Charge {
    assert!(length <= memory.length);
    // SAFETY: the run is as long as it is said to be.
    unsafe { cavzemil_charge_of(Prices { of: prices }, memory.start, length) }
}

/// Lengths of whole windows, far beyond the most and such as are short in 32 bits among them.
fn whole_lengths() -> impl Iterator<Item = usize> {
    let far = [8 << 16, (8 << 16) + 8, 1 << 32, (1 << 32) + 8, 8 << 32, (8 << 32) + 8, LONGEST - 8, LONGEST];
    [8_008, 8_016, 16_000, 80_000].into_iter().chain(far)
}

/// Rule 11.10: good and bad prices.
#[test]
fn parts_of_windows_are_not_read() {
    let memory = Closed::new(LONGEST);
    let whole = whole_lengths().chain([8, 16, 800, 7_992, 8_000]);
    for length in whole.flat_map(|length| (1..8).map(move |less| length - less)) {
        for prices in [[0; 8], [1_000_000; 8], [1_000_001; 8]] {
            assert_eq!(charge_unread(&memory, prices, length), Charge { refusal: 6, cents: 0 });
        }
    }
}

/// Rule 11.16: each price by itself.
#[test]
fn runs_with_a_bad_price_are_not_read() {
    let memory = Closed::new(LONGEST);
    for length in whole_lengths().chain([0, 8, 16, 800, 7_992, 8_000]) {
        for colorant in 0..8 {
            let mut prices = [1_000_000; 8];
            prices[colorant] = 1_000_001;
            assert_eq!(charge_unread(&memory, prices, length), Charge { refusal: 12, cents: 0 });
        }
    }
}

/// Rule 11.17: no window, and more than 1,000.
#[test]
fn runs_of_too_many_windows_are_not_read() {
    let memory = Closed::new(LONGEST);
    for length in whole_lengths().chain([0]) {
        for prices in [[0; 8], [1_000_000; 8]] {
            assert_eq!(charge_unread(&memory, prices, length), Charge { refusal: 13, cents: 0 });
        }
    }
}

/// Runs that end where readable memory ends; 64 windows fill a page, so that some also begin where it begins.
#[test]
fn nothing_beside_a_run_is_read() {
    let mut random = Random::new(81);
    for windows in [1, 2, 63, 64, 65, 128, 960, 999, 1_000] {
        let length: usize = 8 * windows;
        let pages = length.div_ceil(PAGE);
        let mut memory = Closed::new((pages + 2) * PAGE);
        let readable = memory.open(1, pages);
        let first = readable.len() - length;
        let tallies = &mut readable[first..];
        tallies.fill_with(|| u64::from(random.between(0, 1 << 28)));
        let prices = [0; 8].map(|_: u32| random.between(0, 1_000_000));
        assert_eq!(charge(prices, tallies), Ok(charge_of(prices, tallies).cents));
    }
}

/// The record of a screen that is admitted.
const RECORD: Record = Record { a: 4, b: 7, n: 105, k: 2, g: 0, columns: 105, rows: 1, shift: 77 };

/// Rule 11.18: lengths about 765, far beyond it, and such as are 765 in 16 or in 32 bits.
#[test]
fn primaries_of_another_length_are_not_read() {
    let memory = Closed::new(LONGEST);
    let far = [(1 << 16) + 765, 1 << 32, (1 << 32) + 765, (8 << 32) + 765, LONGEST];
    for length in [0, 1, 24, 255, 762, 764, 766, 768, 1530].into_iter().chain(far) {
        for separation in [0, 1] {
            // SAFETY: the run is as long as it is said to be.
            let answer =
                unsafe { cavzemil_predict_cellular(RECORD, separation, 1, 2, 3, memory.start, length) };
            assert_eq!(answer, Cellular { refusal: 14, set: 0, x: 0.0, y: 0.0, z: 0.0 });
        }
    }
}

/// A run that begins where readable memory begins, and one that ends where it ends.
#[test]
fn nothing_beside_primaries_is_read() {
    let mut random = Random::new(82);
    let screen = Screen::try_from(RECORD).expect("the record is true");
    let plain_screen = cavzemil_plain::make_screen(4, 7, 105, 2, 0).screen;
    for first in [0, 2 * PAGE - 765] {
        let mut memory = Closed::new(4 * PAGE);
        let primaries = &mut memory.open(1, 2)[first..first + 765];
        primaries.fill_with(|| f64::from(random.between(0, 2000)) / 10.0);
        for c in 0..=255 {
            let inks = Inks { c, m: 255 - c, y: 90 };
            let [x, y, z] = predict_cellular(plain_screen, 0, [c, 255 - c, 90], primaries).xyz;
            let found = screen.predict_cellular(Separation::Demichel, inks, primaries);
            assert_eq!(found, Ok(Xyz { x, y, z }));
        }
    }
}
