//! The slope of a screen's lines (rule 1.2).

use crate::make::Screen;
use crate::refusal::Refusal;
use std::error::Error;
use std::fmt;
use std::str::FromStr;

/// A slope a/b that the library admitted, so that 1 refuses no screen of it. It is written as in `4/7`.
///
/// ```
/// use cavzemil::{Screen, Slope};
///
/// let slope: Slope = "4/7".parse()?;
/// assert_eq!(slope, Slope::new(4, 7)?);
/// let screen = Screen::from_slope(slope, 105, 2, 0)?;
/// assert_eq!(screen, Screen::new(4, 7, 105, 2, 0)?);
/// assert_eq!(screen.slope().to_string(), "4/7");
/// # Ok::<(), Box<dyn std::error::Error>>(())
/// ```
#[derive(Clone, Copy, Debug, PartialEq, Eq, Hash)]
pub struct Slope {
    a: u32,
    b: u32,
}

impl Slope {
    /// The slope a/b.
    ///
    /// ```
    /// use cavzemil::{Refusal, Slope};
    ///
    /// assert!(Slope::new(63, 64).is_ok());
    /// assert_eq!(Slope::new(4, 8), Err(Refusal::Slope));
    /// ```
    ///
    /// # Errors
    /// 1 unless 1 ≤ a < b ≤ 64 and no number above 1 divides both (rule 11.5).
    pub fn new(a: u32, b: u32) -> Result<Slope, Refusal> {
        // With a cell count of 1 all else is admitted, and the library judges the slope alone.
        Screen::new(a, b, 1, 1, 0).map(Screen::slope)
    }

    /// The rise a.
    #[must_use]
    pub fn a(self) -> u32 {
        self.a
    }

    /// The run b.
    #[must_use]
    pub fn b(self) -> u32 {
        self.b
    }
}

impl Screen {
    /// Makes the screen of a slope, N, K and g: see [`Screen::new`].
    ///
    /// # Errors
    /// 2 for N, 3 for K, 4 for g (rules 11.6 to 11.8).
    pub fn from_slope(slope: Slope, n: u32, k: u32, g: u32) -> Result<Screen, Refusal> {
        Screen::new(slope.a, slope.b, n, k, g)
    }

    /// The slope of its lines.
    #[must_use]
    pub fn slope(self) -> Slope {
        Slope { a: self.a(), b: self.b() }
    }
}

impl fmt::Display for Slope {
    /// Its rise, a slash and its run.
    fn fmt(&self, formatter: &mut fmt::Formatter) -> fmt::Result {
        formatter.pad(&format!("{}/{}", self.a, self.b))
    }
}

impl FromStr for Slope {
    type Err = ParseSlopeError;

    /// The slope that a text says: two numbers and a slash between them.
    ///
    /// # Errors
    /// [`ParseSlopeError::Form`] for a text of another form, and [`ParseSlopeError::Refused`] where
    /// [`Slope::new`] refuses the numbers.
    fn from_str(text: &str) -> Result<Slope, ParseSlopeError> {
        let (a, b) = text.split_once('/').ok_or(ParseSlopeError::Form)?;
        Slope::new(number(a)?, number(b)?).map_err(ParseSlopeError::Refused)
    }
}

/// The number that digits say; Rust itself would take a sign before them. One that is too large for the library
/// is handed on as the largest, which is no part of a slope either.
fn number(text: &str) -> Result<u32, ParseSlopeError> {
    if text.is_empty() || !text.bytes().all(|byte| byte.is_ascii_digit()) {
        return Err(ParseSlopeError::Form);
    }
    Ok(text.parse().unwrap_or(u32::MAX))
}

/// Why a text says no slope.
///
/// ```
/// use cavzemil::{ParseSlopeError, Refusal, Slope};
///
/// assert_eq!("4/8".parse::<Slope>(), Err(ParseSlopeError::Refused(Refusal::Slope)));
/// assert_eq!("4:7".parse::<Slope>(), Err(ParseSlopeError::Form));
/// assert_eq!("+4/7".parse::<Slope>(), Err(ParseSlopeError::Form));
/// assert_eq!(ParseSlopeError::Form.to_string(), "a slope is written as two numbers a/b, as in 4/7");
/// ```
#[derive(Clone, Copy, Debug, PartialEq, Eq)]
#[non_exhaustive]
pub enum ParseSlopeError {
    /// It isn't two numbers and a slash between them.
    Form,
    /// The slope isn't admitted.
    Refused(Refusal),
}

impl fmt::Display for ParseSlopeError {
    /// Says how a slope is written, or why it is refused.
    fn fmt(&self, formatter: &mut fmt::Formatter) -> fmt::Result {
        match self {
            ParseSlopeError::Form => formatter.write_str("a slope is written as two numbers a/b, as in 4/7"),
            ParseSlopeError::Refused(refusal) => refusal.fmt(formatter),
        }
    }
}

impl Error for ParseSlopeError {}
