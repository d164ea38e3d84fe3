//! Making a screen, replacing one of its numbers, moving it, and filing it (rules 17.1 to 17.6 and 19.1 to
//! 19.4).

use crate::refusal::{served, Refusal};
use crate::Record;
use cavzemil_sys::calls;
use cavzemil_sys::ffi::Made;

/// A screen: the slope a/b, the cell count N, the number of subscreens K, the offset g, and the columns, rows
/// and shift of its brick (rule 1.1).
///
/// Every screen is admitted, so that 1 to 4 and 15 refuse none of its calls. [`Screen::new`] makes one of five
/// numbers, and [`Screen::from_slope`] of a [`Slope`](crate::Slope) and three; [`Screen::with_offset`],
/// [`Screen::with_subscreens`] and [`Screen::with_cells`] replace a number; [`Screen::moved`] looks at a screen
/// from another corner; and `try_from` tests a [`Record`] that was filed. There is no other way to come by one.
/// A replacement answers another screen, and the one that it was asked of stays the caller's as it was: a
/// screen is copied. So nothing is lost where a replacement is refused (rule 17.4).
///
/// ```
/// use cavzemil::{Record, Refusal, Screen};
///
/// let screen = Screen::new(4, 7, 105, 2, 40)?;
/// assert_eq!((screen.columns(), screen.rows(), screen.shift()), (105, 1, 77));
///
/// let filed = Record::from(screen);
/// assert_eq!(Screen::try_from(filed), Ok(screen));
/// assert_eq!(Screen::try_from(Record { shift: 78, ..filed }), Err(Refusal::Stored));
/// # Ok::<(), Refusal>(())
/// ```
///
/// A record that nobody tested is no screen:
///
/// ```compile_fail
/// use cavzemil::{Record, Screen};
///
/// let record = Record { a: 4, b: 7, n: 105, k: 2, g: 40, columns: 105, rows: 1, shift: 78 };
/// let screen = Screen { record };
/// ```
#[derive(Clone, Copy, Debug, PartialEq, Eq, Hash)]
pub struct Screen {
    record: Record,
}

/// The screen of an answer that isn't refused.
fn screen(made: Made) -> Result<Screen, Refusal> {
    served(made.refusal, Screen { record: made.screen })
}

impl Screen {
    /// Makes the screen of a, b, N, K and g, with the columns, rows and shift that follow (rule 17.2).
    ///
    /// ```
    /// use cavzemil::{Refusal, Screen};
    ///
    /// assert_eq!(Screen::new(4, 8, 70, 1, 0), Err(Refusal::Slope));
    /// assert_eq!(Screen::new(4, 7, 0, 1, 0), Err(Refusal::CellCount));
    /// assert_eq!(Screen::new(4, 7, 5, 6, 0), Err(Refusal::Subscreens));
    /// assert_eq!(Screen::new(4, 7, 70, 1, 70), Err(Refusal::Offset));
    /// ```
    ///
    /// # Errors
    /// 1 for the slope, 2 for N, 3 for K, 4 for g (rules 11.5 to 11.8).
    pub fn new(a: u32, b: u32, n: u32, k: u32, g: u32) -> Result<Screen, Refusal> {
        screen(calls::make_screen(a, b, n, k, g))
    }

    /// The screen with another offset g, all else as it is (rules 17.3 and 17.5).
    ///
    /// ```
    /// use cavzemil::{Refusal, Screen};
    ///
    /// let screen = Screen::new(4, 7, 70, 2, 40)?;
    /// assert_eq!(screen.with_offset(69)?, Screen::new(4, 7, 70, 2, 69)?);
    /// assert_eq!(screen.with_offset(70), Err(Refusal::Offset));
    /// assert_eq!(screen.g(), 40);
    /// # Ok::<(), Refusal>(())
    /// ```
    ///
    /// # Errors
    /// 4 from N on.
    #[must_use = "a replacement answers another screen, and leaves this one as it was"]
    pub fn with_offset(self, g: u32) -> Result<Screen, Refusal> {
        screen(calls::replace_offset(self.record, g))
    }

    /// The screen with another number of subscreens K, all else as it is (rules 17.3 and 17.5).
    ///
    /// ```
    /// use cavzemil::{Refusal, Screen};
    ///
    /// let screen = Screen::new(4, 7, 70, 2, 40)?;
    /// assert_eq!(screen.with_subscreens(16)?, Screen::new(4, 7, 70, 16, 40)?);
    /// assert_eq!(screen.with_subscreens(17), Err(Refusal::Subscreens));
    /// assert_eq!(screen.k(), 2);
    /// # Ok::<(), Refusal>(())
    /// ```
    ///
    /// # Errors
    /// 3 where K isn't 1 to 16 or is above N.
    #[must_use = "a replacement answers another screen, and leaves this one as it was"]
    pub fn with_subscreens(self, k: u32) -> Result<Screen, Refusal> {
        screen(calls::replace_subscreens(self.record, k))
    }

    /// The screen with another cell count N, the columns, rows and shift that follow from it, and the slope,
    /// K and g as they are (rules 17.3 and 17.5).
    ///
    /// ```
    /// use cavzemil::{Refusal, Screen};
    ///
    /// let screen = Screen::new(4, 7, 105, 2, 40)?.with_cells(70)?;
    /// assert_eq!((screen.columns(), screen.rows(), screen.shift()), (35, 2, 14));
    /// assert_eq!((screen.k(), screen.g()), (2, 40));
    /// assert_eq!(screen.with_cells(1), Err(Refusal::Subscreens));
    /// assert_eq!(screen.with_cells(40), Err(Refusal::Offset));
    /// assert_eq!(screen.n(), 70);
    /// # Ok::<(), Refusal>(())
    /// ```
    ///
    /// # Errors
    /// 2 where N isn't 1 to 4,096, 3 where K is above it, 4 where g isn't below it.
    #[must_use = "a replacement answers another screen, and leaves this one as it was"]
    pub fn with_cells(self, n: u32) -> Result<Screen, Refusal> {
        screen(calls::replace_cells(self.record, n))
    }

    /// The screen as it is seen from column x and row y: its phase at (u, v) is that of this one at (x + u,
    /// y + v). Only the offset differs (rules 19.1 to 19.4). Never refused.
    ///
    /// So a sheet may be larger than 65,536 columns or rows: each part of it is rendered from (0, 0), on the
    /// screen as it is seen from the part's corner. A row of 100,000 columns in two parts, whose edge is not to
    /// be seen:
    ///
    /// ```
    /// use cavzemil::{cells_len, Refusal, Screen, Separation, Window};
    ///
    /// let screen = Screen::new(4, 7, 105, 2, 0)?;
    /// let tint = [51, 102, 204];
    /// let render = |screen: Screen, window: Window| {
    ///     let input = tint.repeat(cells_len(window.columns, window.rows)?);
    ///     screen.render_to_vec(Separation::Kueppers, window, &input)
    /// };
    ///
    /// let left = Window { columns: 50_000, rows: 1, ..Window::default() };
    /// let mut row = render(screen, left)?.cells;
    /// row.extend(render(screen.moved(50_000, 0), left)?.cells);
    /// assert_eq!(row.len(), 100_000);
    ///
    /// let about_the_edge = Window { x: 49_997, columns: 7, ..left };
    /// assert_eq!(render(screen, about_the_edge)?.cells, row[49_997..50_004]);
    /// assert_eq!(screen.moved(50_000, 0).moved(0, 9), screen.moved(50_000, 9));
    /// # Ok::<(), Refusal>(())
    /// ```
    #[must_use = "the moved screen is the answer, and this one stays as it was"]
    pub fn moved(self, x: u64, y: u64) -> Screen {
        screen(calls::moved(self.record, x, y)).expect("the library has admitted this screen")
    }

    /// The slope's rise a.
    #[must_use]
    pub fn a(self) -> u32 {
        self.record.a
    }

    /// The slope's run b.
    #[must_use]
    pub fn b(self) -> u32 {
        self.record.b
    }

    /// The cell count N.
    #[must_use]
    pub fn n(self) -> u32 {
        self.record.n
    }

    /// The number of subscreens K.
    #[must_use]
    pub fn k(self) -> u32 {
        self.record.k
    }

    /// The offset g.
    #[must_use]
    pub fn g(self) -> u32 {
        self.record.g
    }

    /// The brick's columns L.
    #[must_use]
    pub fn columns(self) -> u32 {
        self.record.columns
    }

    /// The brick's rows H.
    #[must_use]
    pub fn rows(self) -> u32 {
        self.record.rows
    }

    /// The brick's shift S.
    #[must_use]
    pub fn shift(self) -> u32 {
        self.record.shift
    }
}

impl From<Screen> for Record {
    /// The record of a screen, to be filed.
    fn from(screen: Screen) -> Record {
        screen.record
    }
}

impl TryFrom<Record> for Screen {
    type Error = Refusal;

    /// The screen that a record was filed of.
    ///
    /// # Errors
    /// 1 to 4 by its first five numbers, and then 15 where the columns, rows and shift aren't theirs (rule
    /// 17.1).
    fn try_from(record: Record) -> Result<Screen, Refusal> {
        served(calls::brick_of(record).refusal, Screen { record })
    }
}
