//! Packing and unpacking as a careful programmer writes them in safe Rust: eight pixels at a time, in loops
//! that the compiler can turn into vector code. They answer and refuse as the library does.

use std::array;

/// The most columns, and the most rows (rule 8.8).
const MOST: u32 = 65_536;

/// The lengths of the cells and of the planes, or none where there are too many columns or rows (rule 8.8).
fn lengths(columns: u32, rows: u32) -> Option<(usize, usize)> {
    let (width, height) = (columns as usize, rows as usize);
    (columns <= MOST && rows <= MOST).then_some((width * height, 8 * height * width.div_ceil(8)))
}

/// Packs cells into eight planes, or answers why they are refused (rule 8.5).
pub fn pack(columns: u32, rows: u32, cells: &[u8], planes: &mut [u8]) -> u32 {
    match lengths(columns, rows) {
        None => 5,
        Some((length, _)) if cells.len() != length => 6,
        Some((_, length)) if planes.len() != length => 7,
        _ if cells.iter().fold(0, |most, cell| most.max(*cell)) > 7 => 9,
        _ => {
            pack_rows(columns as usize, rows as usize, cells, planes);
            0
        }
    }
}

/// Packs cells that are colorants, row by row.
fn pack_rows(columns: usize, rows: usize, cells: &[u8], planes: &mut [u8]) {
    let bytes = columns.div_ceil(8);
    let mut planes = planes.chunks_exact_mut((rows * bytes).max(1));
    let mut planes: [&mut [u8]; 8] = array::from_fn(|_| planes.next().unwrap_or_default());
    for row in 0..rows {
        let cells = &cells[row * columns..][..columns];
        pack_row(cells, planes.each_mut().map(|plane| &mut plane[row * bytes..][..bytes]));
    }
}

/// Packs a row: one byte of each plane for every eight cells, and one for those that are left.
fn pack_row(cells: &[u8], planes: [&mut [u8]; 8]) {
    let eights = cells.chunks_exact(8);
    let left = eights.remainder();
    let mut planes = planes.map(|plane| plane.split_at_mut(eights.len()));
    for (place, eight) in eights.enumerate() {
        let bytes = packed(eight);
        (0..8).for_each(|colorant| planes[colorant].0[place] = bytes[colorant]);
    }
    if !left.is_empty() {
        let bytes = packed(left);
        (0..8).for_each(|colorant| planes[colorant].1[0] = bytes[colorant]);
    }
}

/// The planes' bytes for at most eight neighbouring cells, held in one number while they are worked out.
fn packed(cells: &[u8]) -> [u8; 8] {
    let bit = |(pixel, colorant): (usize, &u8)| (128 >> pixel) << (8 * colorant);
    cells.iter().enumerate().map(bit).sum::<u64>().to_le_bytes()
}

/// Unpacks eight planes into cells, or answers why they are refused (rule 8.6).
pub fn unpack(columns: u32, rows: u32, planes: &[u8], cells: &mut [u8]) -> u32 {
    match lengths(columns, rows) {
        None => 5,
        Some((_, length)) if planes.len() != length => 6,
        Some((length, _)) if cells.len() != length => 7,
        _ => unpack_rows(columns as usize, rows as usize, planes, cells),
    }
}

/// Looks at all rows, and unpacks them where none has a fault.
fn unpack_rows(columns: usize, rows: usize, planes: &[u8], cells: &mut [u8]) -> u32 {
    let bytes = columns.div_ceil(8);
    let planes_in = |row| array::from_fn(|colorant| &planes[(colorant * rows + row) * bytes..][..bytes]);
    if (0..rows).any(|row| row_faults(columns, planes_in(row)) != 0) {
        return 9;
    }
    (0..rows).for_each(|row| unpack_row(planes_in(row), &mut cells[row * columns..][..columns]));
    0
}

/// The faults of a row: in the bytes that are full of pixels, and in one that has padding.
fn row_faults(columns: usize, planes: [&[u8]; 8]) -> u8 {
    let full = columns / 8;
    let padded = !(255 >> (columns % 8));
    faults(planes.map(|plane| &plane[..full]), 255) | faults(planes.map(|plane| &plane[full..]), padded)
}

/// The bits that are wrong at any place, given those of pixels: a pixel's that is set in no plane or in
/// several, and padding that is set.
fn faults(planes: [&[u8]; 8], pixels: u8) -> u8 {
    let mut faults = 0;
    for place in 0..planes[0].len() {
        let (mut once, mut again) = (0, 0);
        for plane in planes {
            again |= once & plane[place];
            once |= plane[place];
        }
        faults |= again | (once ^ pixels);
    }
    faults
}

/// Unpacks a row that has no fault: every eight cells, and those that are left.
fn unpack_row(planes: [&[u8]; 8], cells: &mut [u8]) {
    let full = cells.len() / 8;
    let (eights, left) = cells.split_at_mut(8 * full);
    unpack_places(planes, eights);
    if !left.is_empty() {
        let mut last = [0; 8];
        unpack_places(planes.map(|plane| &plane[full..]), &mut last);
        left.copy_from_slice(&last[..left.len()]);
    }
}

/// Unpacks whole places: a pixel gets the ones, the twos and the fours of its plane's number.
fn unpack_places(planes: [&[u8]; 8], cells: &mut [u8]) {
    let planes = planes.map(|plane| &plane[..cells.len() / 8]);
    for (place, cells) in cells.chunks_exact_mut(8).enumerate() {
        let byte = |colorant: usize| planes[colorant][place];
        let ones = byte(1) | byte(3) | byte(5) | byte(7);
        let twos = byte(2) | byte(3) | byte(6) | byte(7);
        let fours = byte(4) | byte(5) | byte(6) | byte(7);
        for (pixel, cell) in cells.iter_mut().enumerate() {
            let bit = |byte: u8| byte >> (7 - pixel) & 1;
            *cell = bit(ones) + 2 * bit(twos) + 4 * bit(fours);
        }
    }
}
