//! The eight colorants (rule 4.2).

use std::error::Error;
use std::fmt;

/// A colorant, which a rendered cell holds by its number. Colorants are ordered by these.
///
/// ```
/// use cavzemil::Colorant;
///
/// assert_eq!(Colorant::ALL[3], Colorant::Blue);
/// assert_eq!(Colorant::Blue.number(), 3);
/// assert_eq!(Colorant::Blue.to_string(), "blue");
/// ```
///
/// It is also come by from that number:
///
/// ```
/// use cavzemil::Colorant;
///
/// assert_eq!(Colorant::try_from(3), Ok(Colorant::Blue));
/// assert_eq!(u8::from(Colorant::Blue), 3);
/// assert_eq!(Colorant::ALL[3].to_string(), "blue");
/// ```
#[derive(Clone, Copy, Debug, PartialEq, Eq, PartialOrd, Ord, Hash)]
pub enum Colorant {
    /// 0, ink c.
    Cyan,
    /// 1, ink m.
    Magenta,
    /// 2, ink y.
    Yellow,
    /// 3, inks c and m.
    Blue,
    /// 4, inks c and y.
    Green,
    /// 5, inks m and y.
    Red,
    /// 6, all three inks.
    Black,
    /// 7, no ink; silver on a metallic press.
    White,
}

impl Colorant {
    /// All eight, each at its own number.
    pub const ALL: [Colorant; 8] = [
        Colorant::Cyan,
        Colorant::Magenta,
        Colorant::Yellow,
        Colorant::Blue,
        Colorant::Green,
        Colorant::Red,
        Colorant::Black,
        Colorant::White,
    ];

    /// Its number, 0 to 7.
    #[must_use]
    pub fn number(self) -> u8 {
        self as u8
    }

    /// The colorants of a set, in their order, by its number, in which colorant j counts 2^j (rule 16.2).
    ///
    /// ```
    /// use cavzemil::Colorant;
    ///
    /// let colorants: Vec<Colorant> = Colorant::of_set(1 + 8 + 128).collect();
    /// assert_eq!(colorants, [Colorant::Cyan, Colorant::Blue, Colorant::White]);
    /// ```
    pub fn of_set(set: u8) -> impl Iterator<Item = Colorant> {
        Colorant::ALL.into_iter().filter(move |colorant| set >> colorant.number() & 1 == 1)
    }

    /// The colorant that the library answered by number.
    pub(crate) fn from_answer(number: u32) -> Colorant {
        Colorant::ALL[number as usize]
    }
}

impl From<Colorant> for u8 {
    /// Its number, as a cell holds it.
    fn from(colorant: Colorant) -> u8 {
        colorant.number()
    }
}

impl TryFrom<u8> for Colorant {
    type Error = UnknownColorant;

    /// The colorant that a cell holds.
    ///
    /// # Errors
    /// Where the number is above 7.
    fn try_from(number: u8) -> Result<Colorant, UnknownColorant> {
        Colorant::ALL.get(usize::from(number)).copied().ok_or(UnknownColorant { number })
    }
}

impl fmt::Display for Colorant {
    /// Its name.
    fn fmt(&self, formatter: &mut fmt::Formatter) -> fmt::Result {
        formatter.pad(match self {
            Colorant::Cyan => "cyan",
            Colorant::Magenta => "magenta",
            Colorant::Yellow => "yellow",
            Colorant::Blue => "blue",
            Colorant::Green => "green",
            Colorant::Red => "red",
            Colorant::Black => "black",
            Colorant::White => "white",
        })
    }
}

/// A number that no colorant has.
///
/// ```
/// let unknown = cavzemil::Colorant::try_from(8).unwrap_err();
/// assert_eq!(unknown.to_string(), "the colorants are 0 to 7, and 8 is none");
/// ```
#[derive(Clone, Copy, Debug, PartialEq, Eq)]
pub struct UnknownColorant {
    number: u8,
}

impl fmt::Display for UnknownColorant {
    /// Says which numbers there are.
    fn fmt(&self, formatter: &mut fmt::Formatter) -> fmt::Result {
        write!(formatter, "the colorants are 0 to 7, and {} is none", self.number)
    }
}

impl Error for UnknownColorant {}
