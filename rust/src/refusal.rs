//! Refusals (rules 11.1 to 11.19).

use crate::colorant::Colorant;
use std::error::Error;
use std::fmt;

/// Why a call can't be served; where several refusals apply, it is that of the lowest number (rule 11.2), but
/// 14 before 11 (rule 16.8).
///
/// 1 to 4 and 15 refuse numbers that are to become a [`Screen`](crate::Screen), never one that there is.
/// Number 10 is the counts program's alone (rule 11.14), and no call here can meet it.
///
/// ```
/// use cavzemil::{Refusal, Screen};
///
/// let refusal = Screen::new(4, 8, 70, 1, 0).unwrap_err();
/// assert_eq!(refusal, Refusal::Slope);
/// assert_eq!(refusal.number(), 1);
/// assert_eq!(
///     refusal.to_string(),
///     "the slope a/b needs 1 ≤ a < b ≤ 64 and no common divisor above 1 (refusal 1)"
/// );
/// ```
#[derive(Clone, Copy, Debug, PartialEq, Eq, Hash)]
pub enum Refusal {
    /// 1: the slope isn't admitted.
    Slope,
    /// 2: the cell count N isn't 1 to 4,096.
    CellCount,
    /// 3: the number of subscreens K isn't 1 to 16, or is above N.
    Subscreens,
    /// 4: the offset g isn't below N.
    Offset,
    /// 5: a window, a lone place or a plate reaches beyond the sheet's 65,536 columns or rows.
    OffSheet,
    /// 6: the run that is read hasn't the length that the columns and rows give or, of tallies, one that is
    /// a multiple of 8.
    InputLength,
    /// 7: the run that is written hasn't the length that the columns and rows give.
    OutputLength,
    /// 8: the brick buffer is shorter than N places, or a renderer finds a wrong phase among its first N.
    Brick,
    /// 9: a cell above 7, a pixel that is set in no plane or in several, or padding that is set.
    Plates,
    /// 11: a primary's value isn't 0 to 200; this is the first such colorant.
    Primary(Colorant),
    /// 11 of a cellular prediction: a value of some set's primary isn't 0 to 200; this is the lowest such
    /// set, by its number, 1 to 255 (rules 16.2 and 16.8).
    PrimarySet(u8),
    /// 12: a price is above 1,000,000 cents for a million cells.
    Price,
    /// 13: the windows of the job aren't 1 to 1,000, or one of them has more cells than the sheet, which has
    /// 4,294,967,296.
    Job,
    /// 14: the primaries of a cellular prediction aren't 765 values, three for each of 255 sets.
    PrimariesLength,
    /// 15: the columns, rows and shift in a screen's record aren't those of its a, b and N.
    Stored,
}

/// In another crate a `match` of all cases compiles without a `_`:
///
/// ```
/// use cavzemil::Refusal;
///
/// fn is_of_length(refusal: Refusal) -> bool {
///     match refusal {
///         Refusal::Slope | Refusal::CellCount | Refusal::Subscreens | Refusal::Offset => false,
///         Refusal::OffSheet | Refusal::Brick | Refusal::Plates | Refusal::Primary(_) => false,
///         Refusal::PrimarySet(_) | Refusal::Price | Refusal::Job | Refusal::Stored => false,
///         Refusal::InputLength | Refusal::OutputLength | Refusal::PrimariesLength => true,
///     }
/// }
/// ```
#[cfg(doctest)]
struct Exhaustive;

impl Refusal {
    /// Its number.
    #[must_use]
    pub fn number(self) -> u32 {
        self.told().0
    }

    /// What is wrong, in a sentence that is the same in every language that the library is called from. What a
    /// refusal is displayed as names colorants and sets too.
    ///
    /// ```
    /// use cavzemil::{Colorant, Refusal};
    ///
    /// let refusal = Refusal::Primary(Colorant::Magenta);
    /// assert_eq!(refusal.sentence(), "a value of a primary is not 0 to 200");
    /// assert_eq!(refusal.to_string(), "a value of the magenta primary is not 0 to 200 (refusal 11)");
    /// ```
    #[must_use]
    pub fn sentence(self) -> &'static str {
        self.told().1
    }

    /// Its number and its sentence.
    fn told(self) -> (u32, &'static str) {
        match self {
            Refusal::Slope => (1, "the slope a/b needs 1 <= a < b <= 64 and no common divisor above 1"),
            Refusal::CellCount => (2, "the cell count N must be 1 to 4,096"),
            Refusal::Subscreens => (3, "the number of subscreens K must be 1 to 16 and not above N"),
            Refusal::Offset => (4, "the offset g must be below N"),
            Refusal::OffSheet => (5, "columns or rows beyond the sheet's 65,536 were asked for"),
            Refusal::InputLength => (6, "the input has another length than the call needs"),
            Refusal::OutputLength => (7, "the output has another length than the call needs"),
            Refusal::Brick => (8, "the brick buffer has fewer than N places or holds a wrong phase"),
            Refusal::Plates => {
                (9, "a cell is above 7, a pixel is in no plane or in several, or padding is set")
            }
            Refusal::Primary(_) | Refusal::PrimarySet(_) => (11, "a value of a primary is not 0 to 200"),
            Refusal::Price => (12, "a price is above 1,000,000 cents for a million cells"),
            Refusal::Job => (13, "a job needs 1 to 1,000 windows, each of at most 4,294,967,296 cells"),
            Refusal::PrimariesLength => {
                (14, "a cellular prediction needs 765 values, X, Y, Z of each of 255 sets")
            }
            Refusal::Stored => (15, "the stored columns, rows and shift are not those of a, b and N"),
        }
    }

    /// The refusal of a number that the library answered, but for 11, which the calls that can meet it make
    /// themselves.
    ///
    /// # Panics
    /// Where the number is none of these: then the archive is not Cavzemil's, or follows other rules than
    /// [`crate::RULES`].
    fn of(number: u32) -> Refusal {
        match number {
            1 => Refusal::Slope,
            2 => Refusal::CellCount,
            3 => Refusal::Subscreens,
            4 => Refusal::Offset,
            5 => Refusal::OffSheet,
            6 => Refusal::InputLength,
            7 => Refusal::OutputLength,
            8 => Refusal::Brick,
            9 => Refusal::Plates,
            12 => Refusal::Price,
            13 => Refusal::Job,
            14 => Refusal::PrimariesLength,
            15 => Refusal::Stored,
            _ => panic!("the library answered {number}, which is no refusal of this call"),
        }
    }
}

/// The answer of a call that is served, by the number that the library gave its refusal.
pub(crate) fn served<T>(refusal: u32, answer: T) -> Result<T, Refusal> {
    match refusal {
        0 => Ok(answer),
        number => Err(Refusal::of(number)),
    }
}

impl fmt::Display for Refusal {
    /// Says what is wrong, with its number.
    fn fmt(&self, formatter: &mut fmt::Formatter) -> fmt::Result {
        let wrong = match self {
            Refusal::Slope => "the slope a/b needs 1 ≤ a < b ≤ 64 and no common divisor above 1",
            Refusal::InputLength => {
                "the input's length does not fit the columns and rows or, of tallies, is no multiple of 8"
            }
            Refusal::OutputLength => "the output's length does not fit the columns and rows",
            Refusal::Brick => "the brick buffer is below N places or holds a wrong phase",
            Refusal::Primary(colorant) => {
                return write!(formatter, "a value of the {colorant} primary is not 0 to 200 (refusal 11)");
            }
            Refusal::PrimarySet(set) => {
                let names: Vec<String> =
                    Colorant::of_set(*set).map(|colorant| colorant.to_string()).collect();
                let names = names.join(", ");
                return write!(formatter, "a value of set {set} ({names}) is not 0 to 200 (refusal 11)");
            }
            _ => self.sentence(),
        };
        write!(formatter, "{wrong} (refusal {})", self.number())
    }
}

impl Error for Refusal {}
