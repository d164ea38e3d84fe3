//! Cells a second of the compiled library: both renderers on flat, gradient and noisy images, packing and
//! unpacking; beside each the plain second implementation and a copy of the same input bytes, and beside
//! packing and unpacking a careful version, all measured in the same run. Lines follow with the time of a
//! call: for a lone cell, for what else a screen is asked and how one is come by, for the charge of a job and
//! for a cellular prediction. Run by `cargo run --release --features bench --bin bench`.

mod careful;

use cavzemil::{charge, planes_len, Inks, Screen, Separation, Window, Xyz};
use cavzemil_plain as plain;
use cavzemil_plain::random::Random;
use cavzemil_sys::calls;
use std::hint::black_box;
use std::time::Instant;

/// The columns, and the rows, of every image.
const SIDE: u32 = 4096;

/// The cells of every image.
const CELLS: usize = (SIDE * SIDE) as usize;

/// The columns of plates: a multiple of 128, an odd multiple of 8, and no multiple of 8.
const PLATE_COLUMNS: [u32; 3] = [SIDE, SIDE - 8, SIDE - 3];

/// The columns of narrower plates of the noisy image, in pairs: a multiple of 8, and three less.
const NARROW_COLUMNS: [u32; 8] = [512, 509, 256, 253, 128, 125, 64, 61];

/// Repeats of the library's calls, of its calls and the careful ones on plates, of the plain ones, and of
/// copies.
const REPEATS: u32 = 3;
const PLATE_REPEATS: u32 = 25;
const PLAIN_REPEATS: u32 = 2;
const COPY_REPEATS: u32 = 10;

/// How many calls of each sort are made by which a screen is asked or come by, without lent memory.
const SCREEN_CALLS: u32 = 100_000;

/// How many charges are asked for, and the windows of their job.
const CHARGES: u32 = 10_000;
const JOB_WINDOWS: u32 = 1_000;

/// How many cellular predictions are asked for, and the values of their primaries.
const PREDICTIONS: u32 = 100_000;
const PRIMARIES: u32 = 765;

/// The cells of the images' screen, and the most that a screen may have.
const IMAGE_SCREEN: u32 = 105;
const LARGEST_SCREEN: u32 = 4096;

/// The window, as both implementations take it.
const WINDOW: Window = Window { x: 0, y: 0, columns: SIDE, rows: SIDE };
const PLAIN_WINDOW: plain::Window = plain::Window { x: 0, y: 0, columns: SIDE, rows: SIDE };

/// The screen 4/7 of so many cells in 2 subscreens, as both implementations take it.
fn screens(n: u32) -> (Screen, plain::Screen) {
    (screened(Screen::new(4, 7, n, 2, 0)), plain::make_screen(4, 7, n, 2, 0).screen)
}

/// An image's name and its ink values.
type Image = (&'static str, Vec<u8>);

/// The three images.
fn images() -> [Image; 3] {
    let mut random = Random::new(7);
    let place = |byte: usize| (byte / 3 % SIDE as usize, byte / 3 / SIDE as usize, byte % 3);
    let gradient = |byte| match place(byte) {
        (column, _, 0) => (column / 16) as u8,
        (_, row, 1) => (row / 16) as u8,
        (column, row, _) => 255 - ((column + row) / 32) as u8,
    };
    [
        ("flat", [128, 128, 0].repeat(CELLS)),
        ("gradient", (0..3 * CELLS).map(gradient).collect()),
        ("noisy", (0..3 * CELLS).map(|_| random.byte()).collect()),
    ]
}

/// Seconds of the best of some repeats.
fn seconds(repeats: u32, mut call: impl FnMut()) -> f64 {
    let mut best = f64::INFINITY;
    for _ in 0..repeats {
        let start = Instant::now();
        call();
        best = best.min(start.elapsed().as_secs_f64());
    }
    best
}

/// Cells a second at the best of some repeats of a call on so many cells.
fn speed(cells: usize, repeats: u32, call: impl FnMut()) -> f64 {
    cells as f64 / seconds(repeats, call)
}

/// Cells a second of copying these bytes, which belong to so many cells together.
fn copy_speed(cells: usize, bytes: &[u8]) -> f64 {
    let mut copy = vec![1; bytes.len()];
    speed(cells, COPY_REPEATS, || black_box(&mut copy).copy_from_slice(black_box(bytes)))
}

/// Cells a second of a call: by the library, by the plain implementation, by the careful version where there
/// is one, and of copying what the call reads.
struct Speeds {
    library: f64,
    plain: f64,
    careful: Option<f64>,
    copy: f64,
}

/// Prints the table's head, or a row of it.
fn print_columns(call: &str, columns: [String; 7]) {
    println!("{call:<34}{}", columns.map(|column| format!("{column:>11}")).concat());
}

/// Prints a row of the table: millions of cells a second, and how many times as fast the library is.
fn print_row(call: &str, speeds: Speeds) {
    let Speeds { library, plain, careful, copy } = speeds;
    let rounded = |number: f64| format!("{number:.2}");
    let millions = |speed: f64| rounded(speed / 1e6);
    let times = |speed: f64| rounded(library / speed);
    let or_dash = |words: Option<String>| words.unwrap_or("-".into());
    print_columns(
        call,
        [
            millions(library),
            millions(plain),
            or_dash(careful.map(millions)),
            millions(copy),
            times(plain),
            or_dash(careful.map(times)),
            format!("{:.4}", library / copy),
        ],
    );
}

/// Prints the time of a call, in nanoseconds, from the seconds that so many took.
fn print_call(call: &str, calls: u32, library: f64, plain: f64) {
    let nanoseconds = |seconds: f64| seconds * 1e9 / f64::from(calls);
    println!("{call}: {:.0} ns a call; plain {:.0} ns", nanoseconds(library), nanoseconds(plain));
}

/// Measures the renderer that works phases out.
fn measure_render(separation: Separation, (name, input): &Image) {
    let (screen, plain_screen) = screens(IMAGE_SCREEN);
    let (mut cells, mut plain_cells) = (vec![8; CELLS], vec![8; CELLS]);
    let library = speed(CELLS, REPEATS, || {
        screened(screen.render(separation, WINDOW, input, &mut cells));
    });
    let plain = speed(CELLS, PLAIN_REPEATS, || {
        black_box(plain::render(plain_screen, separation.number(), PLAIN_WINDOW, input, &mut plain_cells));
    });
    assert!(cells == plain_cells, "both implementations render alike");
    let speeds = Speeds { library, plain, careful: None, copy: copy_speed(CELLS, input) };
    print_row(&format!("render, {separation:?}, {name}"), speeds);
}

/// Measures the renderer that reads phases from a brick buffer.
fn measure_render_brick(separation: Separation, (name, input): &Image) {
    let (screen, plain_screen) = screens(IMAGE_SCREEN);
    let (mut cells, mut plain_cells) = (vec![8; CELLS], vec![8; CELLS]);
    let mut brick = [0; IMAGE_SCREEN as usize];
    screened(screen.fill_brick(&mut brick));
    let library = speed(CELLS, REPEATS, || {
        screened(screen.render_brick(separation, WINDOW, input, &brick, &mut cells));
    });
    let plain = speed(CELLS, PLAIN_REPEATS, || {
        let number = separation.number();
        black_box(plain::render_brick(plain_screen, number, PLAIN_WINDOW, input, &brick, &mut plain_cells));
    });
    assert!(cells == plain_cells, "both implementations render alike");
    let speeds = Speeds { library, plain, careful: None, copy: copy_speed(CELLS, input) };
    print_row(&format!("render_brick, {separation:?}, {name}"), speeds);
}

/// A call of pack or unpack: it takes columns, rows, what is read and what is written, and answers 0 or a
/// refusal.
type PlateCall = fn(u32, u32, &[u8], &mut [u8]) -> u32;

/// A call on plates: by the library, by the plain implementation and by the careful version.
struct PlateCalls {
    name: &'static str,
    library: PlateCall,
    plain: PlateCall,
    careful: PlateCall,
}

/// Both calls on plates.
const PACK: PlateCalls =
    PlateCalls { name: "pack", library: calls::pack, plain: plain::pack, careful: careful::pack };
const UNPACK: PlateCalls =
    PlateCalls { name: "unpack", library: calls::unpack, plain: plain::unpack, careful: careful::unpack };

/// Fails unless the library and the careful version refuse a damaged last byte, and write nothing.
fn check_refused(calls: &PlateCalls, columns: u32, input: &[u8], length: usize) {
    let mut damaged = input.to_vec();
    damaged[input.len() - 1] ^= 8;
    for call in [calls.library, calls.careful] {
        let mut written = vec![8; length];
        assert_eq!(call(columns, SIDE, &damaged, &mut written), 9, "it is refused");
        assert!(written.iter().all(|byte| *byte == 8), "nothing is written");
    }
}

/// Measures a call on the plates of an image of so many columns, and gives what it writes.
fn measure_plate(calls: &PlateCalls, image: &str, columns: u32, input: &[u8], length: usize) -> Vec<u8> {
    let cells = (columns * SIDE) as usize;
    let measured = |repeats, call: PlateCall| {
        let mut written = vec![8; length];
        let speed = speed(cells, repeats, || {
            assert_eq!(call(columns, SIDE, black_box(input), &mut written), 0, "it is not refused");
        });
        (speed, written)
    };
    let (library, written) = measured(PLATE_REPEATS, calls.library);
    let (plain, plain_written) = measured(PLAIN_REPEATS, calls.plain);
    let (careful, careful_written) = measured(PLATE_REPEATS, calls.careful);
    assert!(written == plain_written && written == careful_written, "all of them {} alike", calls.name);
    check_refused(calls, columns, input, length);
    let speeds = Speeds { library, plain, careful: Some(careful), copy: copy_speed(cells, input) };
    print_row(&format!("{}, {image}, {columns} columns", calls.name), speeds);
    written
}

/// Measures packing and unpacking of an image's first cells, in rows of so many columns.
fn measure_plates(columns: u32, (name, input): &Image) {
    let (screen, _) = screens(IMAGE_SCREEN);
    let mut cells = vec![8; (columns * SIDE) as usize];
    let input = &input[..3 * cells.len()];
    screened(screen.render(Separation::Demichel, Window { columns, ..WINDOW }, input, &mut cells));
    let length = screened(planes_len(columns, SIDE));
    let planes = measure_plate(&PACK, name, columns, &cells, length);
    let unpacked = measure_plate(&UNPACK, name, columns, &planes, cells.len());
    assert!(unpacked == cells, "unpacking undoes packing");
}

/// Measures a call that is handed one number after another.
fn measure_call<L, P>(call: &str, library: impl Fn(u32) -> L, plain: impl Fn(u32) -> P) {
    let library = seconds(REPEATS, || {
        (0..SCREEN_CALLS).for_each(|number| {
            black_box(library(black_box(number)));
        });
    });
    let plain = seconds(PLAIN_REPEATS, || {
        (0..SCREEN_CALLS).for_each(|number| {
            black_box(plain(black_box(number)));
        });
    });
    print_call(&format!("{call}, n = {LARGEST_SCREEN}"), SCREEN_CALLS, library, plain);
}

/// Measures what the largest screen is asked for a place: a lone cell's colorant, and a phase.
fn measure_places() {
    let (screen, plain_screen) = screens(LARGEST_SCREEN);
    let place = |number: u32| (number % SIDE, number / 7);
    let inks = Inks { c: 51, m: 102, y: 204 };
    let cell_at = |(x, y)| screened(screen.cell_at(Separation::Kueppers, x, y, inks));
    let plain_cell_at =
        |(x, y)| plain::cell_at(plain_screen, Separation::Kueppers.number(), x, y, [51, 102, 204]);
    measure_call("cell_at", |number| cell_at(place(number)), |number| plain_cell_at(place(number)));
    let phase_at = |(x, y)| screened(screen.phase_at(x, y));
    let plain_phase_at = |(x, y)| plain::phase_at(plain_screen, x, y);
    measure_call("phase_at", |number| phase_at(place(number)), |number| plain_phase_at(place(number)));
}

/// Measures what the largest screen is asked without a place.
fn measure_counts_and_brick() {
    let (screen, plain_screen) = screens(LARGEST_SCREEN);
    let c_screen = calls::make_screen(4, 7, LARGEST_SCREEN, 2, 0).screen;
    measure_call(
        "counts_of",
        |number| screen.counts(Separation::Kueppers, Inks { c: number as u8, m: 102, y: 204 }),
        |number| plain::counts_of(plain_screen, Separation::Kueppers.number(), [number as u8, 102, 204]),
    );
    measure_call(
        "brick_of",
        |_| calls::brick_of(black_box(c_screen)),
        |_| plain::brick_of(black_box(plain_screen)),
    );
}

/// Measures how the largest screen is come by, and how it gets another cell count.
fn measure_making() {
    let (screen, plain_screen) = screens(LARGEST_SCREEN);
    measure_call(
        "make_screen",
        |number| screened(Screen::new(4, 7, LARGEST_SCREEN, 2, number % LARGEST_SCREEN)),
        |number| plain::make_screen(4, 7, LARGEST_SCREEN, 2, number % LARGEST_SCREEN),
    );
    measure_call(
        "replace_cells",
        |number| screened(screen.with_cells(LARGEST_SCREEN - number % 1000)),
        |number| plain::replace_cells(plain_screen, LARGEST_SCREEN - number % 1000),
    );
}

/// Measures the charge of the longest job.
fn measure_charge() {
    let mut random = Random::new(8);
    let prices = [0; 8].map(|_: u32| random.between(0, 1_000_000));
    let tallies: Vec<u64> = (0..8 * JOB_WINDOWS).map(|_| u64::from(random.between(0, SIDE * SIDE))).collect();
    let library = seconds(REPEATS, || {
        (0..CHARGES).for_each(|_| {
            black_box(screened(charge(prices, black_box(&tallies))));
        });
    });
    let plain = seconds(PLAIN_REPEATS, || {
        (0..CHARGES).for_each(|_| {
            black_box(plain::charge_of(prices, black_box(&tallies)));
        });
    });
    assert_eq!(screened(charge(prices, &tallies)), plain::charge_of(prices, &tallies).cents);
    print_call(&format!("charge, {JOB_WINDOWS} windows"), CHARGES, library, plain);
}

/// Measures cellular predictions of ink values that change from call to call.
fn measure_predict_cellular() {
    let (screen, plain_screen) = screens(IMAGE_SCREEN);
    let mut random = Random::new(9);
    let primaries: Vec<f64> = (0..PRIMARIES).map(|_| f64::from(random.between(0, 2000)) / 10.0).collect();
    let patches = || (0..PREDICTIONS).map(|patch| [patch as u8, (patch / 7) as u8, (patch / 61) as u8]);
    let library = seconds(REPEATS, || {
        patches().for_each(|[c, m, y]| {
            let inks = Inks { c, m, y };
            black_box(screened(screen.predict_cellular(Separation::Demichel, inks, black_box(&primaries))));
        });
    });
    let plain = seconds(PLAIN_REPEATS, || {
        patches().for_each(|inks| {
            let number = Separation::Demichel.number();
            black_box(plain::predict_cellular(plain_screen, number, inks, black_box(&primaries)));
        });
    });
    let Xyz { x, y, z } =
        screened(screen.predict_cellular(Separation::Demichel, Inks { c: 128, m: 128, y: 0 }, &primaries));
    let expected = plain::predict_cellular(plain_screen, 0, [128, 128, 0], &primaries).xyz;
    assert_eq!([x, y, z], expected, "both implementations predict alike");
    print_call(&format!("predict_cellular, {PRIMARIES} values"), PREDICTIONS, library, plain);
}

/// The answer of a call that is not refused.
fn screened<T>(answer: Result<T, cavzemil::Refusal>) -> T {
    answer.expect("the benchmark's calls are not refused")
}

/// Prints the whole table.
fn main() {
    println!(
        "{SIDE} by {SIDE} cells, best of {REPEATS} (plates: of {PLATE_REPEATS}, plain: of {PLAIN_REPEATS}); \
         millions of cells a second"
    );
    let head = ["library", "plain", "careful", "copy", "× plain", "× careful", "× copy"];
    print_columns("call", head.map(String::from));
    let images = images();
    for separation in [Separation::Demichel, Separation::Kueppers] {
        for image in &images {
            measure_render(separation, image);
            measure_render_brick(separation, image);
        }
    }
    for columns in PLATE_COLUMNS {
        images.iter().for_each(|image| measure_plates(columns, image));
    }
    let [_, _, noisy] = &images;
    NARROW_COLUMNS.into_iter().for_each(|columns| measure_plates(columns, noisy));
    measure_places();
    measure_counts_and_brick();
    measure_making();
    measure_charge();
    measure_predict_cellular();
}
