//! Calls that answer `Vec`s: what they answer is what those that fill slices write, and what is refused by its
//! sizes has no memory made for it. The program gives no run of more than 64 MiB, and is broken off where one is
//! asked for; so it is a program of its own.

use cavzemil::{cells_len, pack, pack_to_vec, planes_len, unpack, unpack_to_vec};
use cavzemil::{Refusal, Screen, Separation, Window};
use cavzemil_plain::random::Random;
use std::alloc::{GlobalAlloc, Layout, System};
use std::ptr::null_mut;

/// The system's memory, of which a run has at most so many bytes.
struct Sparing;

const MOST: usize = 64 << 20;

// SAFETY: what is given and taken back is the system's, and where none is given the answer says so.
unsafe impl GlobalAlloc for Sparing {
    unsafe fn alloc(&self, layout: Layout) -> *mut u8 {
        if layout.size() > MOST {
            null_mut()
        } else {
            System.alloc(layout)
        }
    }

    unsafe fn dealloc(&self, memory: *mut u8, layout: Layout) {
        System.dealloc(memory, layout);
    }
}

#[global_allocator]
static MEMORY: Sparing = Sparing;

/// A screen that is admitted.
fn screen() -> Screen {
    Screen::new(4, 7, 70, 3, 5).expect("the screen is admitted")
}

/// The whole sheet.
const SHEET: Window = Window { x: 0, y: 0, columns: 65_536, rows: 65_536 };

/// Windows that reach beyond the sheet: by one column or row, and by as many as there are numbers.
const BEYOND: [Window; 5] = [
    Window { x: 1, ..SHEET },
    Window { y: 1, ..SHEET },
    Window { columns: 65_537, ..SHEET },
    Window { columns: u32::MAX, rows: u32::MAX, ..SHEET },
    Window { x: u32::MAX, y: u32::MAX, columns: u32::MAX, rows: u32::MAX },
];

#[test]
fn windows_beyond_the_sheet_have_no_memory_made_for_them() {
    let brick = screen().brick_to_vec();
    for window in BEYOND {
        for separation in Separation::ALL {
            let worked = screen().render_to_vec(separation, window, &[]);
            let read = screen().render_brick_to_vec(separation, window, &[], &brick);
            assert_eq!((worked, read), (Err(Refusal::OffSheet), Err(Refusal::OffSheet)), "{window:?}");
        }
    }
    for (columns, rows) in [(65_537, 1), (1, 65_537), (u32::MAX, u32::MAX)] {
        assert_eq!(pack_to_vec(columns, rows, &[]), Err(Refusal::OffSheet));
        assert_eq!(unpack_to_vec(columns, rows, &[]), Err(Refusal::OffSheet));
    }
}

#[test]
fn input_of_another_length_has_no_memory_made_for_it() {
    let refused = Err(Refusal::InputLength);
    assert_eq!(screen().render_to_vec(Separation::Demichel, SHEET, &[0; 2]), refused);
    assert_eq!(screen().render_brick_to_vec(Separation::Demichel, SHEET, &[0; 2], &[]), refused);
    assert_eq!(pack_to_vec(65_536, 65_536, &[0; 2]), Err(Refusal::InputLength));
    assert_eq!(unpack_to_vec(65_536, 65_536, &[0; 2]), Err(Refusal::InputLength));
}

/// A window of up to 40 columns and 9 rows, which may have none, with ink values for it.
fn draw(random: &mut Random) -> (Window, Vec<u8>) {
    let (columns, rows) = (random.between(0, 40), random.between(0, 9));
    let window = Window { x: random.between(0, 65_496), y: random.between(0, 65_527), columns, rows };
    (window, (0..3 * columns * rows).map(|_| random.byte()).collect())
}

#[test]
fn vecs_hold_what_slices_would() -> Result<(), Refusal> {
    let mut random = Random::new(121);
    let brick = screen().brick_to_vec();
    for _ in 0..5_000 {
        let (window, input) = draw(&mut random);
        let separation = random.one_of(&Separation::ALL);
        let mut cells = vec![8; cells_len(window.columns, window.rows)?];
        let tallies = screen().render(separation, window, &input, &mut cells)?;
        let rendered = screen().render_to_vec(separation, window, &input)?;
        assert_eq!((&rendered.cells, rendered.tallies), (&cells, tallies));
        assert_eq!(screen().render_brick_to_vec(separation, window, &input, &brick)?, rendered);

        let Window { columns, rows, .. } = window;
        let mut planes = vec![255; planes_len(columns, rows)?];
        pack(columns, rows, &cells, &mut planes)?;
        assert_eq!(pack_to_vec(columns, rows, &cells)?, planes);
        let mut unpacked = vec![8; cells.len()];
        unpack(columns, rows, &planes, &mut unpacked)?;
        assert_eq!(unpack_to_vec(columns, rows, &planes)?, unpacked);
    }
    Ok(())
}

/// What is judged by content is refused like it is of slices.
#[test]
fn bad_cells_planes_and_bricks_are_refused() {
    let lone = Window { columns: 1, rows: 1, ..Window::default() };
    let read = |brick: &[u16]| screen().render_brick_to_vec(Separation::Demichel, lone, &[0; 3], brick);
    assert_eq!(read(&[0; 69]), Err(Refusal::Brick));
    assert_eq!(read(&[0; 70]), Err(Refusal::Brick));
    assert_eq!(pack_to_vec(1, 1, &[8]), Err(Refusal::Plates));
    assert_eq!(unpack_to_vec(1, 1, &[0; 8]), Err(Refusal::Plates));
}
