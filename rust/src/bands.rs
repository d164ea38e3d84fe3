//! Pictures cut into bands of rows, to be rendered one after the other.

use crate::filled::sizes_pass;
use crate::lengths;
use crate::make::Screen;
use crate::refusal::Refusal;
use crate::separation::Separation;
use crate::Window;

/// The bands of a picture that is in memory, each with its part of the input: see [`Window::bands`], by which a
/// picture is rendered that is not:
///
/// ```
/// use cavzemil::{cells_len, Refusal, Screen, Separation, Window};
///
/// let screen = Screen::new(4, 7, 105, 2, 0)?;
/// let picture = Window { columns: 210, rows: 40, ..Window::default() };
/// let mut whole = Vec::new();
/// for band in picture.bands(16) {
///     let input = [90, 0, 40].repeat(cells_len(band.columns, band.rows)?);
///     whole.extend(screen.render_to_vec(Separation::Demichel, band, &input)?.cells);
/// }
/// let heights: Vec<u32> = picture.bands(16).map(|band| band.rows).collect();
/// assert_eq!(heights, [16, 16, 8]);
///
/// let input = [90, 0, 40].repeat(210 * 40);
/// assert_eq!(screen.render_to_vec(Separation::Demichel, picture, &input)?.cells, whole);
/// # Ok::<(), Refusal>(())
/// ```
///
/// And one that is in memory:
///
/// ```
/// use cavzemil::{bands, Refusal, Screen, Separation, Window};
///
/// let screen = Screen::new(4, 7, 105, 2, 0)?;
/// let picture = Window { x: 30, y: 1000, columns: 20, rows: 7 };
/// let input: Vec<u8> = (0..3 * 20 * 7).map(|byte| (byte % 256) as u8).collect();
/// let mut cells = [0; 20 * 7];
/// let bands_of_cells = cells.chunks_mut(20 * 3);
/// for ((band, part), out) in bands(picture, 3, &input)?.zip(bands_of_cells) {
///     screen.render(Separation::Kueppers, band, part, out)?;
/// }
/// assert_eq!(screen.render_to_vec(Separation::Kueppers, picture, &input)?.cells, cells);
///
/// let short = bands(picture, 3, &input[1..]).err();
/// assert_eq!(short, Some(Refusal::InputLength));
/// # Ok::<(), Refusal>(())
/// ```
///
/// # Errors
/// As [`Screen::render`](crate::Screen::render) refuses the whole picture: 5 where the window reaches beyond
/// the sheet, and then 6 for the input's length.
pub fn bands(
    window: Window,
    rows_a_band: u32,
    input: &[u8],
) -> Result<impl ExactSizeIterator<Item = (Window, &[u8])>, Refusal> {
    // The library judges a window only together with a screen; this one is always admitted.
    let screen = Screen::new(1, 2, 1, 1, 0)?;
    sizes_pass(|out| screen.render(Separation::Demichel, window, input, out))?;
    Ok(window.bands(rows_a_band).map(move |band| {
        let first = lengths::inks(band.columns, band.y - window.y);
        (band, &input[first..][..lengths::inks(band.columns, band.rows)])
    }))
}
