//! Renders a window of one brick and prints its tallies, then asks for a place beyond the sheet. Its output is
//! `window.expected`.

use cavzemil::{Refusal, Screen, Separation, Window};

fn main() -> Result<(), Refusal> {
    let screen = Screen::new(4, 7, 70, 2, 0)?;
    let brick = screen.brick();
    let window = Window { x: 0, y: 0, columns: brick.columns, rows: brick.rows };
    let input = [51, 102, 204].repeat(70);
    let mut cells = [0; 70];
    let tallies = screen.render(Separation::Kueppers, window, &input, &mut cells)?;
    println!("{} by {}: {tallies:?}", brick.columns, brick.rows);
    if let Err(refusal) = screen.phase_at(65_536, 0) {
        println!("{refusal}");
    }
    Ok(())
}
