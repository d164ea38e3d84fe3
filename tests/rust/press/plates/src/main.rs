//! Prints how many of a screen's 105 cells each ink gets for one colour.

use cavzemil::{Colorant, Refusal, Screen, Separation};

fn main() -> Result<(), Refusal> {
    let screen = Screen::new(4, 7, 105, 2, 0)?;
    let counts = screen.counts(Separation::Demichel, [128, 128, 0].into());
    for (colorant, count) in Colorant::ALL.iter().zip(counts) {
        println!("{colorant} {count}");
    }
    Ok(())
}
