//! Plates: eight planes of one bit a cell, set where the plane's ink prints (rule 8.2).

use crate::colorant::Colorant;
use crate::filled::{filled, sizes_pass};
use crate::lengths;
use crate::refusal::{served, Refusal};
use cavzemil_sys::calls;

/// Packs `columns` × `rows` cells into eight planes, that of colorant 0 first (rules 8.1 to 8.5).
///
/// A set bit in a colorant's plane means that this ink prints at that pixel. A plane has `rows` rows, and a
/// row as many bytes as `columns` bits need. The first pixel of a byte is its highest bit, and padding bits
/// are 0.
///
/// ```
/// let mut planes = [255; 8];
/// cavzemil::pack(3, 1, &[0, 7, 0], &mut planes)?;
/// assert_eq!(planes, [128 + 32, 0, 0, 0, 0, 0, 0, 64]);
/// # Ok::<(), cavzemil::Refusal>(())
/// ```
///
/// # Errors
/// 5 where columns or rows are above 65,536, 6 and 7 for the lengths of cells and planes, 9 for a cell above 7
/// (rules 11.9, 11.10, 11.11 and 11.13).
pub fn pack(columns: u32, rows: u32, cells: &[u8], planes: &mut [u8]) -> Result<(), Refusal> {
    served(calls::pack(columns, rows, cells, planes), ())
}

/// Packs cells like [`pack`], and answers the planes. Nothing is allocated where the cells' length is refused.
///
/// ```
/// assert_eq!(cavzemil::pack_to_vec(3, 1, &[0, 7, 0])?, [128 + 32, 0, 0, 0, 0, 0, 0, 64]);
/// # Ok::<(), cavzemil::Refusal>(())
/// ```
///
/// # Errors
/// 5 where columns or rows are above 65,536, 6 for the cells' length, 9 for a cell above 7.
pub fn pack_to_vec(columns: u32, rows: u32, cells: &[u8]) -> Result<Vec<u8>, Refusal> {
    let (planes, ()) = filled(lengths::planes(columns, rows), |planes| pack(columns, rows, cells, planes))?;
    Ok(planes)
}

/// Unpacks eight planes, as [`pack`] lays them out, into `columns` × `rows` cells: each pixel gets the number
/// of the one plane in which its bit is set (rule 8.6).
///
/// ```
/// let mut cells = [200];
/// cavzemil::unpack(1, 1, &[0, 0, 0, 128, 0, 0, 0, 0], &mut cells)?;
/// assert_eq!(cells, [3]);
///
/// let doubled = cavzemil::unpack(1, 1, &[128, 128, 0, 0, 0, 0, 0, 0], &mut cells);
/// assert_eq!(doubled, Err(cavzemil::Refusal::Plates));
/// assert_eq!(cells, [3]);
/// # Ok::<(), cavzemil::Refusal>(())
/// ```
///
/// # Errors
/// 5 where columns or rows are above 65,536, 6 and 7 for the lengths of planes and cells, 9 for a pixel that is
/// set in no plane or in several, or for padding that is set (rules 11.9, 11.10, 11.11 and 11.13).
pub fn unpack(columns: u32, rows: u32, planes: &[u8], cells: &mut [u8]) -> Result<(), Refusal> {
    served(calls::unpack(columns, rows, planes, cells), ())
}

/// Unpacks planes like [`unpack`], and answers the cells. Nothing is allocated where the planes' length is
/// refused.
///
/// ```
/// assert_eq!(cavzemil::unpack_to_vec(3, 1, &[128 + 32, 0, 0, 0, 0, 0, 0, 64])?, [0, 7, 0]);
/// # Ok::<(), cavzemil::Refusal>(())
/// ```
///
/// # Errors
/// 5 where columns or rows are above 65,536, 6 for the planes' length, 9 for a pixel that is set in no plane or
/// in several, or for padding that is set.
pub fn unpack_to_vec(columns: u32, rows: u32, planes: &[u8]) -> Result<Vec<u8>, Refusal> {
    let (cells, ()) = filled(lengths::cells(columns, rows), |cells| unpack(columns, rows, planes, cells))?;
    Ok(cells)
}

/// The eight planes of plates that [`pack`] laid out, each with its colorant (rule 8.1). Their bits are not
/// judged.
///
/// ```
/// use cavzemil::{pack_to_vec, planes, Refusal};
///
/// let plates = pack_to_vec(3, 2, &[0, 7, 0, 7, 7, 7])?;
/// for (colorant, plane) in planes(3, 2, &plates)? {
///     let inked: u32 = plane.iter().map(|byte| byte.count_ones()).sum();
///     println!("{colorant}: {inked} cells, rows {:?}", plane.chunks(1).collect::<Vec<_>>());
/// }
/// let cyan = planes(3, 2, &plates)?.next().map(|(_, plane)| plane);
/// assert_eq!(cyan, Some(&[128 + 32, 0][..]));
///
/// let short = planes(3, 2, &plates[1..]).err();
/// assert_eq!(short, Some(Refusal::InputLength));
/// # Ok::<(), Refusal>(())
/// ```
///
/// # Errors
/// As [`unpack`] refuses them: 5 where columns or rows are above 65,536, and then 6 for their length.
pub fn planes(
    columns: u32,
    rows: u32,
    plates: &[u8],
) -> Result<impl ExactSizeIterator<Item = (Colorant, &[u8])>, Refusal> {
    sizes_pass(|cells| unpack(columns, rows, plates, cells))?;
    let length = plates.len() / 8;
    Ok(Colorant::ALL.into_iter().map(move |colorant| {
        let first = usize::from(colorant.number()) * length;
        (colorant, &plates[first..][..length])
    }))
}
