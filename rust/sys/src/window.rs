//! Windows cut into bands of rows.

use crate::ffi::Window;

impl Window {
    /// The windows of at most so many rows that this one is cut into, from the top. A band has at least a row,
    /// so that 0 counts as 1; a window without rows has no bands.
    ///
    /// Each band is a window of the same sheet. So the cells and tallies of its bands are those of the window,
    /// and only a band's ink values have to be in memory:
    ///
    /// ```
    /// # use cavzemil_sys::ffi::Window;
    /// let picture = Window { columns: 210, rows: 40, ..Window::default() };
    /// let heights: Vec<u32> = picture.bands(16).map(|band| band.rows).collect();
    /// assert_eq!(heights, [16, 16, 8]);
    /// ```
    #[must_use = "bands are made as they are asked for"]
    pub fn bands(self, rows_a_band: u32) -> impl ExactSizeIterator<Item = Window> {
        let most = rows_a_band.max(1);
        (0..self.rows.div_ceil(most)).map(move |band| {
            let above = band * most;
            // A window beyond the sheet may have rows beyond all numbers, which are beyond the sheet too.
            Window { y: self.y.saturating_add(above), rows: most.min(self.rows - above), ..self }
        })
    }
}
