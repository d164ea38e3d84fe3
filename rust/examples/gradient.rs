//! Screens a gradient of 200 columns by 100 rows and writes its plates to a folder, a PBM file each. It works on
//! bands of 16 rows, so that no more than a band is in memory, and prints how many cells each ink gets.
//!
//!     cargo run --release --example gradient -- FOLDER

use cavzemil::{pack_to_vec, planes, Colorant, Screen, Separation, Window};
use std::error::Error;
use std::fs::File;
use std::io::{self, Write};
use std::path::Path;
use std::process::ExitCode;

const PICTURE: Window = Window { x: 0, y: 0, columns: 200, rows: 100 };

/// The ink values of a band: cyan grows to the right, magenta downwards, yellow to the left.
fn inks(band: Window) -> Vec<u8> {
    let rows = band.y..band.y + band.rows;
    let pixels = rows.flat_map(|y| (0..band.columns).map(move |x| (x, y)));
    let values = pixels.flat_map(|(x, y)| [x * 255 / 199, y * 255 / 99, (199 - x) * 255 / 199]);
    values.map(|value| value as u8).collect()
}

/// A new file for a colorant's plate, with a PBM's head.
fn create(folder: &Path, colorant: Colorant) -> Result<File, Box<dyn Error>> {
    let path = folder.join(format!("gradient-{}-{colorant}.pbm", colorant.number()));
    let mut file = File::create(&path).map_err(|error| format!("{}: {error}", path.display()))?;
    write!(file, "P4\n{} {}\n", PICTURE.columns, PICTURE.rows)?;
    Ok(file)
}

/// Writes the plates, band by band, and answers the tallies of all bands.
fn write_plates(folder: &Path) -> Result<[u64; 8], Box<dyn Error>> {
    let screen = Screen::new(4, 7, 105, 2, 0)?;
    let mut files = Vec::new();
    for colorant in Colorant::ALL {
        files.push(create(folder, colorant)?);
    }
    let mut tallies = [0; 8];
    for band in PICTURE.bands(16) {
        let rendered = screen.render_to_vec(Separation::Kueppers, band, &inks(band))?;
        let plates = pack_to_vec(band.columns, band.rows, &rendered.cells)?;
        for ((_, plane), file) in planes(band.columns, band.rows, &plates)?.zip(&mut files) {
            file.write_all(plane)?;
        }
        for (tally, more) in tallies.iter_mut().zip(rendered.tallies) {
            *tally += more;
        }
    }
    Ok(tallies)
}

/// Writes the plates and prints the tallies.
fn run(folder: &Path) -> Result<(), Box<dyn Error>> {
    let tallies = write_plates(folder)?;
    for (colorant, tally) in Colorant::ALL.iter().zip(tallies) {
        writeln!(io::stdout(), "{colorant:<8} {tally:>5}")?;
    }
    Ok(())
}

fn main() -> ExitCode {
    let arguments: Vec<_> = std::env::args_os().skip(1).collect();
    let [folder] = &arguments[..] else {
        eprintln!("usage: gradient FOLDER");
        return ExitCode::from(2);
    };
    if let Err(error) = run(Path::new(folder)) {
        eprintln!("gradient: {error}");
        return ExitCode::FAILURE;
    }
    ExitCode::SUCCESS
}
