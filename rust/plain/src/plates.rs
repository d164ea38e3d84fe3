//! Rules 8.1 to 8.8: plates.

use crate::screen::SHEET;

/// The bytes of a plane's row: as many as W bits need (rule 8.1).
fn row_bytes(columns: u32) -> u64 {
    u64::from(columns).div_ceil(8)
}

/// The bytes of all eight planes.
fn plates_length(columns: u32, rows: u32) -> u64 {
    8 * u64::from(rows) * row_bytes(columns)
}

/// The lowest of the refusals 5 to 7 that applies, with the stated lengths of input and output, or 0.
fn length_refusal(columns: u32, rows: u32, input: (&[u8], u64), output: (&[u8], u64)) -> u32 {
    if u64::from(columns) > SHEET || u64::from(rows) > SHEET {
        5
    } else if input.0.len() as u64 != input.1 {
        6
    } else if output.0.len() as u64 != output.1 {
        7
    } else {
        0
    }
}

/// The byte of the planes that holds pixel x of row y in a colorant's plane.
fn plane_byte(columns: u32, rows: u32, colorant: usize, x: u32, y: u32) -> usize {
    let row = row_bytes(columns) as usize;
    (colorant * rows as usize + y as usize) * row + x as usize / 8
}

/// The mask of the bit of column x: 128, halved x mod 8 times (rule 8.3).
fn mask(x: u32) -> u8 {
    128 >> (x % 8)
}

/// Packs colorant bytes into eight planes, or answers why they are refused (rule 8.5).
pub fn pack(columns: u32, rows: u32, cells: &[u8], planes: &mut [u8]) -> u32 {
    let stated = u64::from(columns) * u64::from(rows);
    let refusal = length_refusal(columns, rows, (cells, stated), (planes, plates_length(columns, rows)));
    if refusal != 0 {
        return refusal;
    }
    if cells.iter().any(|cell| *cell > 7) {
        return 9;
    }
    planes.fill(0);
    let mut cell = 0;
    for y in 0..rows {
        for x in 0..columns {
            let colorant = usize::from(cells[cell]);
            planes[plane_byte(columns, rows, colorant, x, y)] |= mask(x);
            cell += 1;
        }
    }
    0
}

/// Whether the bit of x in row y is set in a colorant's plane; x may be a padding bit's number.
fn bit_set(columns: u32, rows: u32, planes: &[u8], colorant: usize, x: u32, y: u32) -> bool {
    planes[plane_byte(columns, rows, colorant, x, y)] & mask(x) != 0
}

/// The colorants in whose planes the bit of x in row y is set.
fn planes_set(columns: u32, rows: u32, planes: &[u8], x: u32, y: u32) -> impl Iterator<Item = u8> + '_ {
    (0..8).filter(move |colorant| bit_set(columns, rows, planes, usize::from(*colorant), x, y))
}

/// The colorant bytes of planes, or none where a pixel is set in no plane or in several, or padding is set
/// (rule 11.13).
fn read_planes(columns: u32, rows: u32, planes: &[u8]) -> Option<Vec<u8>> {
    let mut cells = Vec::new();
    for y in 0..rows {
        for x in 0..8 * row_bytes(columns) as u32 {
            let mut set = planes_set(columns, rows, planes, x, y);
            let padding = x >= columns;
            match (padding, set.next(), set.next()) {
                (false, Some(colorant), None) => cells.push(colorant),
                (true, None, _) => {}
                _ => return None,
            }
        }
    }
    Some(cells)
}

/// Unpacks eight planes into colorant bytes, or answers why they are refused (rule 8.6).
pub fn unpack(columns: u32, rows: u32, planes: &[u8], cells: &mut [u8]) -> u32 {
    let stated = u64::from(columns) * u64::from(rows);
    let refusal = length_refusal(columns, rows, (planes, plates_length(columns, rows)), (cells, stated));
    if refusal != 0 {
        return refusal;
    }
    match read_planes(columns, rows, planes) {
        Some(read) => {
            cells.copy_from_slice(&read);
            0
        }
        None => 9,
    }
}
