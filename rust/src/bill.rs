//! The ink bill: what a job costs (rules 15.1 to 15.6).

use crate::refusal::{served, Refusal};
use cavzemil_sys::calls;

/// The charge of a job in whole cents, from what a million cells of each colorant cost and from the tallies
/// of its windows, eight a window, one window after the other (rules 15.1 to 15.4).
///
/// The cells of all windows are added up before they are priced, and the charge is rounded up once. So a job
/// never costs more than its windows apart, and saves fewer cents than it has windows (rule 15.5). The
/// tallies of a renderer's answer may be handed on as they are (rule 15.6).
///
/// ```
/// use cavzemil::{charge, Refusal, Screen, Separation, Window};
///
/// let screen = Screen::new(4, 7, 105, 2, 0)?;
/// let input = [128, 128, 0].repeat(105);
/// let mut cells = [0; 105];
/// let mut row = |y| {
///     let window = Window { x: 0, y, columns: 105, rows: 1 };
///     screen.render(Separation::Demichel, window, &input, &mut cells)
/// };
/// let windows = [row(0)?, row(1)?];
///
/// let prices = [10_000, 10_000, 8_000, 20_000, 20_000, 20_000, 6_000, 5_000];
/// let job = charge(prices, windows.as_flattened())?;
/// let apart = charge(prices, &windows[0])? + charge(prices, &windows[1])?;
/// assert_eq!((job, apart), (3, 4));
///
/// assert_eq!(charge([1_000_001; 8], &windows[0]), Err(Refusal::Price));
/// assert_eq!(charge(prices, &[]), Err(Refusal::Job));
/// # Ok::<(), Refusal>(())
/// ```
///
/// # Errors
/// 6 where the length is no multiple of 8, 12 for a price above 1,000,000, 13 for no window, for more than
/// 1,000, and for one of more than 4,294,967,296 cells (rules 11.10, 11.16 and 11.17).
pub fn charge(prices: [u32; 8], tallies: &[u64]) -> Result<u64, Refusal> {
    let charge = calls::charge_of(prices, tallies);
    served(charge.refusal, charge.cents)
}
