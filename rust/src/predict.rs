//! Predicted colours (rules 9.1 to 9.5 and 16.1 to 16.8).

use crate::colorant::Colorant;
use crate::colour::{Inks, Xyz};
use crate::make::Screen;
use crate::refusal::{served, Refusal};
use crate::separation::Separation;
use cavzemil_sys::calls;

impl Screen {
    /// The colour of a patch: the mean of the eight primaries, weighed by the counts (rules 9.1 to 9.5).
    ///
    /// ```
    /// use cavzemil::{Colorant, Inks, Refusal, Screen, Separation, Xyz};
    ///
    /// let screen = Screen::new(4, 7, 70, 1, 0)?;
    /// let mut primaries = [Xyz { x: 50.0, y: 60.0, z: 70.0 }; 8];
    /// let inks = Inks { c: 0, m: 255, y: 0 };
    /// primaries[1] = Xyz { x: 30.0, y: 20.0, z: 40.0 };
    /// assert_eq!(screen.predict(Separation::Demichel, inks, &primaries), Ok(primaries[1]));
    ///
    /// primaries[1].x = 200.5;
    /// let refused = screen.predict(Separation::Demichel, inks, &primaries);
    /// assert_eq!(refused, Err(Refusal::Primary(Colorant::Magenta)));
    /// # Ok::<(), Refusal>(())
    /// ```
    ///
    /// # Errors
    /// 11, which carries its colorant, where a primary's value isn't 0 to 200 (rule 11.15).
    pub fn predict(self, separation: Separation, inks: Inks, primaries: &[Xyz; 8]) -> Result<Xyz, Refusal> {
        let values: [[f64; 3]; 8] = primaries.map(Xyz::into);
        let answer = calls::predict(self.into(), separation.number(), inks.into(), values.as_flattened());
        match answer.refusal {
            11 => Err(Refusal::Primary(Colorant::from_answer(answer.colorant))),
            number => served(number, Xyz { x: answer.x, y: answer.y, z: answer.z }),
        }
    }

    /// The colour of a patch from the colours of sets of colorants: the mean of eight sets, each with one
    /// colorant more than the set before, weighed by the counts (rules 16.1 to 16.8).
    ///
    /// The primaries are 765 values: X, Y, Z of each of 255 sets, one after the other by the sets' numbers. A
    /// set's number, 1 to 255, counts 2^j for each of its colorants j; [`Colorant::of_set`] goes the other way.
    /// Its colour is that of a patch whose cells its colorants share evenly.
    ///
    /// ```
    /// use cavzemil::{Colorant, Inks, Refusal, Screen, Separation};
    ///
    /// // The solid inks, by colorant. A set that nobody measured gets the mean of its inks.
    /// let solid = [
    ///     [16.0, 22.0, 66.0],
    ///     [32.0, 16.0, 24.0],
    ///     [70.0, 78.0, 8.0],
    ///     [8.0, 4.0, 26.0],
    ///     [10.0, 20.0, 8.0],
    ///     [28.0, 15.0, 3.0],
    ///     [2.0, 2.0, 2.0],
    ///     [80.0, 84.0, 90.0],
    /// ];
    /// let mut primaries = [[0.0; 3]; 255];
    /// for set in 1..=255 {
    ///     let inks: Vec<usize> = Colorant::of_set(set).map(|ink| ink.number().into()).collect();
    ///     let sum = |xyz| inks.iter().map(|ink| solid[*ink][xyz]).sum::<f64>();
    ///     primaries[usize::from(set) - 1] = [0, 1, 2].map(|xyz| sum(xyz) / inks.len() as f64);
    /// }
    /// // Cyan, magenta, blue and white in even shares were measured, and are darker than their mean.
    /// primaries[1 + 2 + 8 + 128 - 1] = [30.0, 28.0, 46.0];
    ///
    /// // The counts are 26, 26, 0, 27, 0, 0, 0, 26: 104 of the 105 cells go to these four, 1 to blue alone.
    /// let screen = Screen::new(4, 7, 105, 2, 0)?;
    /// let predict = |primaries: &[[f64; 3]]| {
    ///     let inks = Inks { c: 128, m: 128, y: 0 };
    ///     screen.predict_cellular(Separation::Demichel, inks, primaries.as_flattened())
    /// };
    /// assert_eq!(predict(&primaries)?.y, (1.0 * 4.0 + 104.0 * 28.0) / 105.0);
    ///
    /// primaries[1 + 64 - 1][2] = -0.5;
    /// let refusal = predict(&primaries).unwrap_err();
    /// assert_eq!(refusal, Refusal::PrimarySet(65));
    /// assert_eq!(refusal.to_string(), "a value of set 65 (cyan, black) is not 0 to 200 (refusal 11)");
    /// # Ok::<(), Refusal>(())
    /// ```
    ///
    /// # Errors
    /// 14 for other than 765 values, and then 11, which carries the lowest set that has a value which isn't 0
    /// to 200, whether this patch needs it or not (rule 16.8).
    pub fn predict_cellular(
        self,
        separation: Separation,
        inks: Inks,
        primaries: &[f64],
    ) -> Result<Xyz, Refusal> {
        let answer = calls::predict_cellular(self.into(), separation.number(), inks.into(), primaries);
        match answer.refusal {
            11 => Err(Refusal::PrimarySet(answer.set.try_into().expect("the library's sets are 1 to 255"))),
            number => served(number, Xyz { x: answer.x, y: answer.y, z: answer.z }),
        }
    }
}
