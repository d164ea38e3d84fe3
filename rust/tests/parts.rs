//! Lengths of runs, bands of pictures and planes of plates.

use cavzemil::{bands, cells_len, input_len, pack, pack_to_vec, plane_len, planes, planes_len, unpack};
use cavzemil::{Colorant, Refusal, Screen, Separation, Window};
use cavzemil_plain::random::Random;

/// Columns or rows at their limits and beyond.
const SIZES: [u32; 10] = [0, 1, 7, 8, 9, 65_535, 65_536, 65_537, 1 << 31, u32::MAX];

/// All pairs of such sizes.
fn sizes() -> impl Iterator<Item = (u32, u32)> {
    SIZES.into_iter().flat_map(|columns| SIZES.map(|rows| (columns, rows)))
}

/// A screen that is admitted.
fn screen() -> Screen {
    Screen::new(4, 7, 70, 3, 5).expect("the screen is admitted")
}

/// Rules 7.2, 7.3, 8.1 and 8.8.
#[test]
fn lengths_are_exact_up_to_the_sheet() {
    for (columns, rows) in sizes() {
        let lengths = [cells_len, input_len, plane_len, planes_len].map(|length| length(columns, rows));
        if columns > 65_536 || rows > 65_536 {
            assert_eq!(lengths, [Err(Refusal::OffSheet); 4], "{columns} by {rows}");
        } else {
            let (columns, rows) = (columns as usize, rows as usize);
            let plane = columns.div_ceil(8) * rows;
            let due = [columns * rows, 3 * columns * rows, plane, 8 * plane];
            assert_eq!(lengths, due.map(Ok), "{columns} by {rows}");
        }
    }
}

/// A call takes runs of the given lengths, and of others it takes none: each is made a byte longer and, where it
/// has any, a byte shorter.
fn check_lengths(input: usize, output: usize, call: impl Fn(&[u8], &mut [u8]) -> Result<(), Refusal>) {
    let (read, mut written) = (vec![0; input + 1], vec![0; output + 1]);
    assert_eq!(call(&read[..input], &mut written[..output]), Ok(()));
    for other in [input.checked_sub(1), Some(input + 1)].into_iter().flatten() {
        assert_eq!(call(&read[..other], &mut written[..output]), Err(Refusal::InputLength));
    }
    for other in [output.checked_sub(1), Some(output + 1)].into_iter().flatten() {
        assert_eq!(call(&read[..input], &mut written[..other]), Err(Refusal::OutputLength));
    }
}

/// The lengths of the functions are those that calls need, and a call is refused for a run of another length, also
/// for such windows as there is no memory for.
#[test]
fn lengths_are_those_that_calls_need() -> Result<(), Refusal> {
    for (columns, rows) in sizes().filter(|(columns, rows)| cells_len(*columns, *rows).is_ok()) {
        let window = Window { columns, rows, ..Window::default() };
        let (cells, planes) = (cells_len(columns, rows)?, planes_len(columns, rows)?);
        let render = |input: &[u8], out: &mut [u8]| screen().render(Separation::Demichel, window, input, out);
        let surplus = [0; 99_999];
        assert_eq!(render(&surplus, &mut []), Err(Refusal::InputLength));
        assert_eq!(pack(columns, rows, &surplus, &mut []), Err(Refusal::InputLength));
        assert_eq!(unpack(columns, rows, &surplus, &mut []), Err(Refusal::InputLength));
        if cells <= 9 * 65_536 {
            check_lengths(input_len(columns, rows)?, cells, |input, out| render(input, out).map(drop));
            check_lengths(cells, planes, |cells, out| pack(columns, rows, cells, out));
            let plates = pack_to_vec(columns, rows, &vec![0; cells])?;
            check_lengths(planes, cells, |read, out| {
                // Of the right length these are plates; of another one they are refused before their bits are read.
                let plates = if read.len() == planes { &plates } else { read };
                unpack(columns, rows, plates, out)
            });
        }
    }
    Ok(())
}

/// The refusal of a call that was lent no output, but for that of the output itself.
fn without_output<T>(answer: Result<T, Refusal>) -> Option<Refusal> {
    answer.err().filter(|refusal| refusal.number() != 7)
}

/// Bands and planes are refused as the library refuses the whole.
#[test]
fn parts_are_refused_like_the_whole() {
    let input = vec![0; 1_600];
    for (columns, rows) in sizes() {
        for found in [0, 1, 8, 24, 192, 1_536] {
            let run = &input[..found];
            let whole = without_output(unpack(columns, rows, run, &mut []));
            let allowed = whole.filter(|refusal| *refusal != Refusal::Plates);
            assert_eq!(planes(columns, rows, run).err(), allowed, "{columns} by {rows}, {found} bytes");
            for (x, y) in [(0, 0), (1, 0), (0, 1), (65_536, 65_536), (u32::MAX, u32::MAX)] {
                let window = Window { x, y, columns, rows };
                let whole = screen().render(Separation::Demichel, window, run, &mut []);
                assert_eq!(bands(window, 3, run).err(), without_output(whole), "{window:?}, {found} bytes");
            }
        }
    }
}

/// Together the bands are the picture: windows one below the other, and all of the input in its order.
#[test]
fn bands_are_the_picture() -> Result<(), Refusal> {
    let mut random = Random::new(131);
    for _ in 0..20_000 {
        let (columns, rows) = (random.between(0, 9), random.between(0, 40));
        let picture = Window { x: random.between(0, 9), y: random.between(0, 65_496), columns, rows };
        let input: Vec<u8> = (0..3 * columns * rows).map(|_| random.byte()).collect();
        let any = random.between(0, 50);
        let rows_a_band = random.one_of(&[0, 1, rows, any, u32::MAX]);
        let parts = bands(picture, rows_a_band, &input)?;
        assert_eq!(parts.len() as u32, rows.div_ceil(rows_a_band.max(1)));
        assert_eq!(parts.len(), picture.bands(rows_a_band).len());
        let (mut next, mut read) = (picture.y, Vec::new());
        for ((band, part), same) in parts.zip(picture.bands(rows_a_band)) {
            assert_eq!((band, band), (same, Window { y: next, rows: band.rows, ..picture }));
            assert!((1..=rows_a_band.max(1)).contains(&band.rows), "{band:?}");
            assert_eq!(Ok(part.len()), input_len(band.columns, band.rows));
            next += band.rows;
            read.extend(part);
        }
        assert_eq!((next, read), (picture.y + rows, input));
    }
    Ok(())
}

/// A window beyond the sheet has bands too; the last of them lies beyond the sheet.
#[test]
fn bands_beyond_the_sheet_stay_there() {
    let far = Window { x: 0, y: u32::MAX - 1, columns: 1, rows: u32::MAX };
    let heights: Vec<u32> = far.bands(1 << 31).map(|band| band.rows).collect();
    assert_eq!(heights, [1 << 31, (1 << 31) - 1]);
    let refused = |band| screen().render(Separation::Demichel, band, &[], &mut []);
    assert!(far.bands(1 << 31).all(|band| refused(band) == Err(Refusal::OffSheet)));
}

/// Planes have all bytes in their order, each under its own colorant.
#[test]
fn planes_are_the_plates() -> Result<(), Refusal> {
    let mut random = Random::new(132);
    for _ in 0..5_000 {
        let (columns, rows) = (random.between(0, 40), random.between(0, 9));
        let cells: Vec<u8> = (0..columns * rows).map(|_| random.byte() % 8).collect();
        let plates = pack_to_vec(columns, rows, &cells)?;
        let parts = planes(columns, rows, &plates)?;
        assert_eq!(parts.len(), 8);
        let (colorants, parts): (Vec<Colorant>, Vec<&[u8]>) = parts.unzip();
        assert_eq!(colorants, Colorant::ALL);
        assert_eq!(parts.concat(), plates);
        for (colorant, part) in Colorant::ALL.iter().zip(parts) {
            let set: u32 = part.iter().map(|byte| byte.count_ones()).sum();
            let due = cells.iter().filter(|cell| **cell == colorant.number()).count();
            assert_eq!((part.len(), set as usize), (plane_len(columns, rows)?, due));
        }
    }
    Ok(())
}
