//! The two separations (rules 4.3 and 4.4).

use std::error::Error;
use std::fmt;
use std::str::FromStr;

/// How ink values become the shares of the eight colorants. Separations are ordered by their numbers, and the
/// text of one is what the program `counts` reads (rule 10.4).
///
/// ```
/// use cavzemil::Separation;
///
/// assert_eq!("kueppers".parse(), Ok(Separation::Kueppers));
/// assert_eq!(Separation::Demichel.to_string(), "demichel");
/// ```
#[derive(Clone, Copy, Debug, PartialEq, Eq, PartialOrd, Ord, Hash)]
pub enum Separation {
    /// Demichel's equations, of inks laid independently (rule 4.3).
    Demichel,
    /// Kueppers's dot-on-dot separation, of at most four colorants a patch (rule 4.4).
    Kueppers,
}

impl Separation {
    /// Both, each at its own number.
    pub const ALL: [Separation; 2] = [Separation::Demichel, Separation::Kueppers];

    /// The number that stands for it in the C interface (rule 14.3).
    #[must_use]
    pub fn number(self) -> u32 {
        match self {
            Separation::Demichel => 0,
            Separation::Kueppers => 1,
        }
    }

    /// Its name in small letters.
    fn name(self) -> &'static str {
        match self {
            Separation::Demichel => "demichel",
            Separation::Kueppers => "kueppers",
        }
    }
}

impl fmt::Display for Separation {
    /// Its name.
    fn fmt(&self, formatter: &mut fmt::Formatter) -> fmt::Result {
        formatter.pad(self.name())
    }
}

impl FromStr for Separation {
    type Err = UnknownSeparation;

    /// The separation of a name.
    ///
    /// # Errors
    /// For any other text, also one that differs only in capital letters or blanks.
    fn from_str(text: &str) -> Result<Separation, UnknownSeparation> {
        let named = Separation::ALL.into_iter().find(|separation| separation.name() == text);
        named.ok_or_else(|| UnknownSeparation { text: text.into() })
    }
}

/// A text that names no separation.
///
/// ```
/// let unknown = "Demichel".parse::<cavzemil::Separation>().unwrap_err();
/// assert_eq!(unknown.to_string(), "the separations are demichel and kueppers, and \"Demichel\" is none");
/// ```
#[derive(Clone, Debug, PartialEq, Eq)]
pub struct UnknownSeparation {
    text: String,
}

impl fmt::Display for UnknownSeparation {
    /// Says which names there are.
    fn fmt(&self, formatter: &mut fmt::Formatter) -> fmt::Result {
        write!(formatter, "the separations are demichel and kueppers, and {:?} is none", self.text)
    }
}

impl Error for UnknownSeparation {}
