//! Draws three motifs in a tint as an SVG, which is `docs/motif.svg`: the cells that the library writes, full in
//! the motifs and pale around them, and below, how many cells of each motif have which ink (rule 18.4).

use cavzemil::{cells_len, Refusal, Screen, Separation, Window};

/// Names and colours of the eight inks, by the colorant's number.
const INKS: [(&str, &str); 8] = [
    ("cyan", "#00a3e0"),
    ("magenta", "#d6177a"),
    ("yellow", "#ffe200"),
    ("blue", "#2d3090"),
    ("green", "#009b48"),
    ("red", "#e2231a"),
    ("black", "#1c1c1c"),
    ("white", "#ffffff"),
];

/// What is rendered and drawn.
const WINDOW: Window = Window { x: 0, y: 0, columns: 33, rows: 24 };

/// A motif: where it is, its first column, and the row at which each of its columns begins.
struct Motif {
    name: &'static str,
    column: u32,
    starts: [u32; 7],
}

const MOTIFS: [Motif; 3] = [
    Motif { name: "left, along the line", column: 3, starts: [7, 7, 6, 6, 5, 5, 4] },
    Motif { name: "middle, each column by itself", column: 13, starts: [1, 5, 3, 8, 6, 2, 7] },
    Motif { name: "right, upright", column: 23, starts: [4; 7] },
];

impl Motif {
    /// Whether it has a cell, with so many rows in each column.
    fn has(&self, rows: u32, column: u32, row: u32) -> bool {
        let place = column.checked_sub(self.column).map(|place| place as usize);
        let start = place.and_then(|place| self.starts.get(place));
        start.is_some_and(|start| (*start..start + rows).contains(&row))
    }
}

/// The column, row and colorant of each cell of the window, as the library writes them for one tint.
fn rendered(screen: Screen) -> Result<Vec<(u32, u32, u8)>, Refusal> {
    let mut cells = vec![0; cells_len(WINDOW.columns, WINDOW.rows)?];
    let input = [128, 128, 0].repeat(cells.len());
    screen.render(Separation::Demichel, WINDOW, &input, &mut cells)?;
    let places = (0..WINDOW.rows).flat_map(|row| (0..WINDOW.columns).map(move |column| (column, row)));
    Ok(places.zip(cells).map(|((column, row), cell)| (column, row, cell)).collect())
}

/// A path with a square for each of the cells that have a colorant.
fn squares<'a>(cells: impl Iterator<Item = &'a (u32, u32, u8)>, colorant: usize) -> String {
    let squares = cells.filter(|(_, _, cell)| usize::from(*cell) == colorant);
    squares.map(|(column, row, _)| format!("M{column} {row}h1v1h-1z")).collect()
}

/// How many of the cells have each ink that some of them have, in words.
fn counted<'a>(cells: impl Iterator<Item = &'a (u32, u32, u8)>) -> String {
    let mut counts = [0; 8];
    cells.for_each(|(_, _, cell)| counts[usize::from(*cell)] += 1);
    let present = counts.iter().zip(INKS).filter(|(count, _)| **count > 0);
    present.map(|(count, (name, _))| format!("{count} {name}")).collect::<Vec<_>>().join(", ")
}

fn main() -> Result<(), Refusal> {
    let screen = Screen::new(4, 7, 105, 2, 0)?;
    let rows = screen.n() / screen.b();
    let cells = rendered(screen)?;
    let (motifs, around): (Vec<_>, Vec<_>) =
        cells.iter().partition(|(column, row, _)| MOTIFS.iter().any(|motif| motif.has(rows, *column, *row)));

    println!(r#"<svg xmlns="http://www.w3.org/2000/svg" width="660" height="560" viewBox="0 0 33 28">"#);
    println!("<title>Three motifs of 7 columns by 15 rows in a tint on the screen 4/7 of 105 cells</title>");
    println!(r##"<rect width="33" height="28" fill="#ffffff"/>"##);
    println!(r##"<rect width="33" height="24" fill="#e0e0e0"/>"##);
    println!(r#"<g shape-rendering="crispEdges">"#);
    for (colorant, (_, colour)) in INKS.iter().enumerate() {
        for (cells, opacity) in [(&around, "0.25"), (&motifs, "1")] {
            let path = squares(cells.iter().copied(), colorant);
            if !path.is_empty() {
                println!(r#"<path fill="{colour}" fill-opacity="{opacity}" d="{path}"/>"#);
            }
        }
    }
    println!("</g>");
    for (line, motif) in MOTIFS.iter().enumerate() {
        let cells = cells.iter().filter(|(column, row, _)| motif.has(rows, *column, *row));
        let y = 25.2 + 1.2 * line as f64;
        println!(
            r#"<text x="0" y="{y:.1}" font-family="sans-serif" font-size="0.9">{}: {}</text>"#,
            motif.name,
            counted(cells)
        );
    }
    println!("</svg>");
    Ok(())
}
