//! How long runs are (rules 7.2, 7.3, 8.1 and 8.8).

use crate::refusal::Refusal;
use cavzemil_sys::calls;

/// A product; one that no memory has room for is the largest number.
fn product(factors: [usize; 3]) -> usize {
    factors.into_iter().fold(1, usize::saturating_mul)
}

/// The cells of so many columns and rows.
pub(crate) fn cells(columns: u32, rows: u32) -> usize {
    product([columns as usize, rows as usize, 1])
}

/// The bytes of their ink values.
pub(crate) fn inks(columns: u32, rows: u32) -> usize {
    product([columns as usize, rows as usize, 3])
}

/// The bytes of one plane.
fn plane(columns: u32, rows: u32) -> usize {
    product([columns.div_ceil(8) as usize, rows as usize, 1])
}

/// The bytes of eight planes.
pub(crate) fn planes(columns: u32, rows: u32) -> usize {
    product([columns.div_ceil(8) as usize, rows as usize, 8])
}

/// A length of so many columns and rows, unless these are more than the sheet's. The library judges that: it is
/// asked to pack no cells, and tests columns and rows first (rule 11.2).
fn on_sheet(columns: u32, rows: u32, length: fn(u32, u32) -> usize) -> Result<usize, Refusal> {
    match calls::pack(columns, rows, &[], &mut []) {
        5 => Err(Refusal::OffSheet),
        _ => Ok(length(columns, rows)),
    }
}

/// How many cells `columns` × `rows` are, and so how many bytes a renderer writes (rule 7.3).
///
/// ```
/// use cavzemil::{cells_len, Refusal};
///
/// assert_eq!(cells_len(105, 2), Ok(210));
/// assert_eq!(cells_len(65_536, 65_536), Ok(4_294_967_296));
/// assert_eq!(cells_len(65_537, 0), Err(Refusal::OffSheet));
/// ```
///
/// # Errors
/// 5 where columns or rows are above 65,536.
pub fn cells_len(columns: u32, rows: u32) -> Result<usize, Refusal> {
    on_sheet(columns, rows, cells)
}

/// How many bytes of ink values a renderer reads for `columns` × `rows` cells: three each (rule 7.2).
///
/// ```
/// assert_eq!(cavzemil::input_len(105, 2), Ok(630));
/// ```
///
/// # Errors
/// 5 where columns or rows are above 65,536.
pub fn input_len(columns: u32, rows: u32) -> Result<usize, Refusal> {
    on_sheet(columns, rows, inks)
}

/// How many bytes one plane of `columns` × `rows` cells has: whole bytes a row (rule 8.1). That of one row is
/// the length of a row.
///
/// ```
/// assert_eq!(cavzemil::plane_len(105, 2), Ok(28));
/// assert_eq!(cavzemil::plane_len(105, 1), Ok(14));
/// ```
///
/// # Errors
/// 5 where columns or rows are above 65,536.
pub fn plane_len(columns: u32, rows: u32) -> Result<usize, Refusal> {
    on_sheet(columns, rows, plane)
}

/// How many bytes all eight planes of `columns` × `rows` cells have (rule 8.8).
///
/// ```
/// assert_eq!(cavzemil::planes_len(105, 2), Ok(224));
/// ```
///
/// # Errors
/// 5 where columns or rows are above 65,536.
pub fn planes_len(columns: u32, rows: u32) -> Result<usize, Refusal> {
    on_sheet(columns, rows, planes)
}

#[cfg(test)]
mod tests {
    use super::{cells, inks, planes};

    /// No sizes make a length run over, also where they are the sheet's and more.
    #[test]
    fn lengths_of_any_sizes_do_not_run_over() {
        let most = u32::MAX;
        assert_eq!(cells(most, most), 0xffff_fffe_0000_0001);
        assert_eq!(planes(most, most), 0xffff_ffff_0000_0000);
        assert_eq!(inks(most, most), usize::MAX);
    }
}
