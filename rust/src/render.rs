//! Rendering windows (rules 7.1 to 7.6).

use crate::filled::filled;
use crate::lengths;
use crate::make::Screen;
use crate::refusal::{served, Refusal};
use crate::separation::Separation;
use crate::Window;
use cavzemil_sys::calls;
use cavzemil_sys::ffi::Rendering;

/// A window that was rendered.
#[derive(Clone, Debug, PartialEq, Eq)]
pub struct Rendered {
    /// Its cells, row by row, a colorant number each.
    pub cells: Vec<u8>,
    /// How many of them have each colorant, by its number.
    pub tallies: [u64; 8],
}

/// The tallies of a rendering that isn't refused.
fn tallies(rendering: Rendering) -> Result<[u64; 8], Refusal> {
    served(rendering.refusal, rendering.tallies)
}

impl Screen {
    /// Renders a window, phases worked out, and answers how many cells it wrote in each colorant.
    ///
    /// The input holds c, m, y for each pixel, row by row; the output gets a colorant number for each
    /// (rules 7.1 to 7.5).
    ///
    /// ```
    /// use cavzemil::{Refusal, Screen, Separation, Window};
    ///
    /// let screen = Screen::new(4, 7, 105, 2, 0)?;
    /// let last = Window { x: 65_535, y: 0, columns: 1, rows: 1 };
    /// let mut cell = [200];
    /// let tallies = screen.render(Separation::Demichel, last, &[255, 255, 0], &mut cell)?;
    /// assert_eq!((cell, tallies), ([3], [0, 0, 0, 1, 0, 0, 0, 0]));
    ///
    /// let beyond = Window { columns: 2, ..last };
    /// let refused = screen.render(Separation::Demichel, beyond, &[0; 6], &mut [0; 2]);
    /// assert_eq!(refused, Err(Refusal::OffSheet));
    /// # Ok::<(), cavzemil::Refusal>(())
    /// ```
    ///
    /// # Errors
    /// 5 where the window reaches beyond the sheet, 6 and 7 for the lengths of input and output (rules 11.9 to
    /// 11.11).
    pub fn render(
        self,
        separation: Separation,
        window: Window,
        input: &[u8],
        out: &mut [u8],
    ) -> Result<[u64; 8], Refusal> {
        tallies(calls::render(self.into(), separation.number(), window, input, out))
    }

    /// Renders a window like [`Screen::render`], phases read from a brick buffer that
    /// [`Screen::fill_brick`] filled (rules 3.9 and 7.6).
    ///
    /// Take [`Screen::render`] unless the phases have to come from a brick: it answers the same, is as fast or
    /// faster, and needs no buffer.
    ///
    /// ```
    /// use cavzemil::{Screen, Separation, Window};
    ///
    /// let screen = Screen::new(4, 7, 70, 3, 5)?;
    /// let window = Window { x: 11, y: 3, columns: 4, rows: 2 };
    /// let input = [51, 102, 204].repeat(8);
    /// let mut brick = [0; 70];
    /// screen.fill_brick(&mut brick)?;
    /// let mut read = [0; 8];
    /// let tallies = screen.render_brick(Separation::Kueppers, window, &input, &brick, &mut read)?;
    ///
    /// let mut worked_out = [0; 8];
    /// assert_eq!(screen.render(Separation::Kueppers, window, &input, &mut worked_out), Ok(tallies));
    /// assert_eq!(read, worked_out);
    /// # Ok::<(), cavzemil::Refusal>(())
    /// ```
    ///
    /// # Errors
    /// As of [`Screen::render`], and then 8 where the buffer is no true brick of the screen (rules 3.8 and
    /// 11.12).
    pub fn render_brick(
        self,
        separation: Separation,
        window: Window,
        input: &[u8],
        brick: &[u16],
        out: &mut [u8],
    ) -> Result<[u64; 8], Refusal> {
        tallies(calls::render_brick(self.into(), separation.number(), window, input, brick, out))
    }

    /// Renders a window like [`Screen::render`], and answers its cells too. Nothing is allocated for a call that
    /// is refused.
    ///
    /// ```
    /// use cavzemil::{Refusal, Rendered, Screen, Separation, Window};
    ///
    /// let screen = Screen::new(1, 2, 1, 1, 0)?;
    /// let window = Window { columns: 3, rows: 1, ..Window::default() };
    /// let input = [128, 0, 0, 0, 128, 0, 0, 0, 0];
    /// let Rendered { cells, tallies } = screen.render_to_vec(Separation::Kueppers, window, &input)?;
    /// assert_eq!(cells, [0, 1, 7]);
    /// assert_eq!(tallies, [1, 1, 0, 0, 0, 0, 0, 1]);
    ///
    /// let short = screen.render_to_vec(Separation::Kueppers, window, &input[1..]);
    /// assert_eq!(short, Err(Refusal::InputLength));
    /// # Ok::<(), Refusal>(())
    /// ```
    ///
    /// # Errors
    /// 5 where the window reaches beyond the sheet, 6 for the input's length.
    pub fn render_to_vec(
        self,
        separation: Separation,
        window: Window,
        input: &[u8],
    ) -> Result<Rendered, Refusal> {
        let length = lengths::cells(window.columns, window.rows);
        let (cells, tallies) = filled(length, |out| self.render(separation, window, input, out))?;
        Ok(Rendered { cells, tallies })
    }

    /// Renders a window like [`Screen::render_brick`], and answers its cells too, like [`Screen::render_to_vec`].
    /// Nothing is allocated for a call that is refused, but for 8: the brick is judged last.
    ///
    /// # Errors
    /// 5 where the window reaches beyond the sheet, 6 for the input's length, 8 where the buffer is no true
    /// brick of the screen.
    pub fn render_brick_to_vec(
        self,
        separation: Separation,
        window: Window,
        input: &[u8],
        brick: &[u16],
    ) -> Result<Rendered, Refusal> {
        let length = lengths::cells(window.columns, window.rows);
        let (cells, tallies) =
            filled(length, |out| self.render_brick(separation, window, input, brick, out))?;
        Ok(Rendered { cells, tallies })
    }
}
