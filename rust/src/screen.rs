//! What a screen can be asked. Every call tests the screen first, by refusals 1 to 4 and 15 (rule 11.4), and a
//! [`Screen`] passes: of each call's refusals only the others are left.

use crate::colorant::Colorant;
use crate::colour::Inks;
use crate::make::Screen;
use crate::refusal::{served, Refusal};
use crate::separation::Separation;
use cavzemil_sys::calls;

/// A brick, which tiles the sheet: (x + shift, y + rows) has the phase of (x, y), and a row repeats after
/// `columns` (rules 3.1 to 3.4).
#[derive(Clone, Copy, Debug, PartialEq, Eq, Hash)]
pub struct Brick {
    /// L, the columns.
    pub columns: u32,
    /// H, the rows.
    pub rows: u32,
    /// S, the shift to the right from one course of bricks to the next.
    pub shift: u32,
}

impl Screen {
    /// The phase of column x and row y, 0 to N − 1 (rule 2.2).
    ///
    /// ```
    /// use cavzemil::{Refusal, Screen};
    ///
    /// let screen = Screen::new(4, 7, 105, 1, 0)?;
    /// assert_eq!(screen.phase_at(0, 1), Ok(7));
    /// assert_eq!(screen.phase_at(3, 2), Ok(26));
    /// assert_eq!(screen.phase_at(65_536, 0), Err(Refusal::OffSheet));
    /// # Ok::<(), Refusal>(())
    /// ```
    ///
    /// # Errors
    /// 5 beyond the sheet.
    pub fn phase_at(self, x: u32, y: u32) -> Result<u32, Refusal> {
        let place = calls::phase_at(self.into(), x, y);
        served(place.refusal, place.phase)
    }

    /// The brick's sizes, as the screen stores them; `columns` × `rows` is N (rules 3.1 to 3.3 and 3.5). Never
    /// refused.
    ///
    /// ```
    /// use cavzemil::{Brick, Screen};
    ///
    /// let screen = Screen::new(4, 7, 70, 1, 0)?;
    /// assert_eq!(screen.brick(), Brick { columns: 35, rows: 2, shift: 14 });
    /// # Ok::<(), cavzemil::Refusal>(())
    /// ```
    #[must_use]
    pub fn brick(self) -> Brick {
        Brick { columns: self.columns(), rows: self.rows(), shift: self.shift() }
    }

    /// Fills the first N places of a brick buffer: place v × columns + u has the phase of (u, v). Later
    /// places stay as they are (rules 3.6 and 3.7).
    ///
    /// ```
    /// use cavzemil::{Refusal, Screen};
    ///
    /// let screen = Screen::new(2, 3, 6, 1, 1)?;
    /// let mut brick = [99; 7];
    /// screen.fill_brick(&mut brick)?;
    /// assert_eq!(brick, [5, 1, 3, 2, 4, 0, 99]);
    /// assert_eq!(screen.fill_brick(&mut brick[..5]), Err(Refusal::Brick));
    /// # Ok::<(), cavzemil::Refusal>(())
    /// ```
    ///
    /// # Errors
    /// 8 below N places.
    pub fn fill_brick(self, brick: &mut [u16]) -> Result<(), Refusal> {
        served(calls::fill_brick(self.into(), brick), ())
    }

    /// A brick buffer of N places, filled like [`Screen::fill_brick`] does. Never refused.
    ///
    /// ```
    /// let screen = cavzemil::Screen::new(2, 3, 6, 1, 1)?;
    /// assert_eq!(screen.brick_to_vec(), [5, 1, 3, 2, 4, 0]);
    /// # Ok::<(), cavzemil::Refusal>(())
    /// ```
    #[must_use]
    pub fn brick_to_vec(self) -> Vec<u16> {
        let mut brick = vec![0; self.n() as usize];
        self.fill_brick(&mut brick)
            .expect("the library has admitted this screen, and the buffer has N places");
        brick
    }

    /// How many of the N cells of a brick each colorant gets; the counts add up to N (rules 5.1 to 5.4). Never
    /// refused.
    ///
    /// ```
    /// use cavzemil::{Inks, Screen, Separation};
    ///
    /// let screen = Screen::new(4, 7, 70, 1, 0)?;
    /// let counts = screen.counts(Separation::Kueppers, Inks { c: 51, m: 102, y: 204 });
    /// assert_eq!(counts, [0, 0, 28, 0, 0, 14, 14, 14]);
    /// # Ok::<(), cavzemil::Refusal>(())
    /// ```
    #[must_use]
    pub fn counts(self, separation: Separation, inks: Inks) -> [u32; 8] {
        let counts = calls::counts_of(self.into(), separation.number(), inks.into());
        served(counts.refusal, counts.of).expect("the library has admitted this screen")
    }

    /// The colorant of column x and row y where the inks have these values (rules 6.3 and 7.8).
    ///
    /// ```
    /// use cavzemil::{Colorant, Inks, Screen, Separation};
    ///
    /// let screen = Screen::new(1, 2, 1, 1, 0)?;
    /// let colorant = |c| screen.cell_at(Separation::Kueppers, 0, 0, Inks { c, m: 0, y: 0 });
    /// assert_eq!(colorant(128), Ok(Colorant::Cyan));
    /// assert_eq!(colorant(127), Ok(Colorant::White));
    /// # Ok::<(), cavzemil::Refusal>(())
    /// ```
    ///
    /// # Errors
    /// 5 beyond the sheet.
    pub fn cell_at(self, separation: Separation, x: u32, y: u32, inks: Inks) -> Result<Colorant, Refusal> {
        let cell = calls::cell_at(self.into(), separation.number(), x, y, inks.into());
        served(cell.refusal, Colorant::from_answer(cell.colorant))
    }
}
