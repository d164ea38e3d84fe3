//! The C interface, as `include/cavzemil.h` declares it (rules 14.1 to 14.4).
//!
//! Structs pass by value, and a slice as its pointer and its length. Refusal 0 means 'not refused'; a
//! separation is 0 for Demichel and 1 for Kueppers, and any other number is refused as 100, before all
//! else.

/// The record of a screen, which may hold any eight numbers.
///
/// It is admitted with the slope a/b, where 1 ≤ a < b ≤ 64 and no number above 1 divides both, the cell count
/// N from 1 to 4,096, the number of subscreens K from 1 to 16 and never above N, the offset g below N, and
/// then the columns, rows and shift of the brick that a, b and N give (rules 1.1 to 1.6 and 17.1).
#[repr(C)]
#[derive(Clone, Copy, Debug, PartialEq, Eq, Hash)]
pub struct Screen {
    /// The slope's rise.
    pub a: u32,
    /// The slope's run.
    pub b: u32,
    /// The cell count N.
    pub n: u32,
    /// The number of subscreens K.
    pub k: u32,
    /// The offset.
    pub g: u32,
    /// The brick's columns L.
    pub columns: u32,
    /// The brick's rows H.
    pub rows: u32,
    /// The brick's shift S.
    pub shift: u32,
}

/// The answer of [`cavzemil_make_screen`], of eight zeros where it is refused, and of the three replacements
/// and [`cavzemil_moved`], which then hand back the screen that they got (rules 17.2, 17.4 and 19.2).
#[repr(C)]
#[derive(Clone, Copy, Debug, PartialEq, Eq)]
pub struct Made {
    /// 0, or the number of the refusal.
    pub refusal: u32,
    /// The screen.
    pub screen: Screen,
}

/// A window of the sheet: its corner, and its columns and rows, which may be 0. The sheet has 65,536
/// columns, from the left, and as many rows, from the top (rules 2.1 and 7.1). By default a window is empty and
/// at the sheet's corner.
#[repr(C)]
#[derive(Clone, Copy, Debug, Default, PartialEq, Eq, Hash)]
pub struct Window {
    /// The first column.
    pub x: u32,
    /// The first row.
    pub y: u32,
    /// How many columns.
    pub columns: u32,
    /// How many rows.
    pub rows: u32,
}

/// The answer of [`cavzemil_phase_at`].
#[repr(C)]
#[derive(Clone, Copy, Debug, PartialEq, Eq)]
pub struct Place {
    /// 0, or the number of the refusal.
    pub refusal: u32,
    /// The phase, 0 to N − 1.
    pub phase: u32,
}

/// The answer of [`cavzemil_brick_of`]: L, H and S.
#[repr(C)]
#[derive(Clone, Copy, Debug, PartialEq, Eq)]
pub struct BrickSizes {
    /// 0, or the number of the refusal.
    pub refusal: u32,
    /// The columns L.
    pub columns: u32,
    /// The rows H.
    pub rows: u32,
    /// The shift S.
    pub shift: u32,
}

/// The answer of [`cavzemil_counts_of`].
#[repr(C)]
#[derive(Clone, Copy, Debug, PartialEq, Eq)]
pub struct Counts {
    /// 0, or the number of the refusal.
    pub refusal: u32,
    /// The count of each colorant, by its number.
    pub of: [u32; 8],
}

/// The answer of [`cavzemil_cell_at`].
#[repr(C)]
#[derive(Clone, Copy, Debug, PartialEq, Eq)]
pub struct Cell {
    /// 0, or the number of the refusal.
    pub refusal: u32,
    /// The colorant's number.
    pub colorant: u32,
}

/// The answer of both renderers.
#[repr(C)]
#[derive(Clone, Copy, Debug, PartialEq, Eq)]
pub struct Rendering {
    /// 0, or the number of the refusal.
    pub refusal: u32,
    /// How many cells were written in each colorant, by its number.
    pub tallies: [u64; 8],
}

/// The answer of [`cavzemil_predict`]; refusal 11 carries its colorant.
#[repr(C)]
#[derive(Clone, Copy, Debug, PartialEq)]
pub struct Prediction {
    /// 0, or the number of the refusal.
    pub refusal: u32,
    /// With refusal 11 the first colorant that has a bad value.
    pub colorant: u32,
    /// X.
    pub x: f64,
    /// Y.
    pub y: f64,
    /// Z.
    pub z: f64,
}

/// The answer of [`cavzemil_predict_cellular`]; refusal 11 carries its set.
#[repr(C)]
#[derive(Clone, Copy, Debug, PartialEq)]
pub struct Cellular {
    /// 0, or the number of the refusal.
    pub refusal: u32,
    /// With refusal 11 the lowest set that has a bad value.
    pub set: u32,
    /// X.
    pub x: f64,
    /// Y.
    pub y: f64,
    /// Z.
    pub z: f64,
}

/// What a million cells of each colorant cost, in cents, at most 1,000,000 (rule 15.2).
#[repr(C)]
#[derive(Clone, Copy, Debug, PartialEq, Eq, Hash)]
pub struct Prices {
    /// The price of each colorant, by its number.
    pub of: [u32; 8],
}

/// The answer of [`cavzemil_charge_of`], in whole cents.
#[repr(C)]
#[derive(Clone, Copy, Debug, PartialEq, Eq)]
pub struct Charge {
    /// 0, or the number of the refusal.
    pub refusal: u32,
    /// The charge.
    pub cents: u64,
}

extern "C" {
    /// The number of the rules that the archive follows.
    pub fn cavzemil_rules() -> u32;

    /// The screen of five numbers.
    pub fn cavzemil_make_screen(a: u32, b: u32, n: u32, k: u32, g: u32) -> Made;

    /// The screen with another offset.
    pub fn cavzemil_replace_offset(s: Screen, g: u32) -> Made;

    /// The screen with another number of subscreens.
    pub fn cavzemil_replace_subscreens(s: Screen, k: u32) -> Made;

    /// The screen with another cell count.
    pub fn cavzemil_replace_cells(s: Screen, n: u32) -> Made;

    /// The screen as it is seen from another corner.
    pub fn cavzemil_moved(s: Screen, x: u64, y: u64) -> Made;

    /// The phase of a place.
    pub fn cavzemil_phase_at(s: Screen, x: u32, y: u32) -> Place;

    /// The brick's columns, rows and shift.
    pub fn cavzemil_brick_of(s: Screen) -> BrickSizes;

    /// Fills the first N places of a brick buffer.
    pub fn cavzemil_fill_brick(s: Screen, brick: *mut u16, brick_len: usize) -> u32;

    /// The counts of the eight colorants.
    pub fn cavzemil_counts_of(s: Screen, separation: u32, c: u8, m: u8, y: u8) -> Counts;

    /// The colorant of a place.
    pub fn cavzemil_cell_at(s: Screen, separation: u32, x: u32, y: u32, c: u8, m: u8, yellow: u8) -> Cell;

    /// Renders a window, phases worked out.
    pub fn cavzemil_render(
        s: Screen,
        separation: u32,
        w: Window,
        input: *const u8,
        input_len: usize,
        out: *mut u8,
        out_len: usize,
    ) -> Rendering;

    /// Renders a window, phases read from a brick buffer.
    pub fn cavzemil_render_brick(
        s: Screen,
        separation: u32,
        w: Window,
        input: *const u8,
        input_len: usize,
        brick: *const u16,
        brick_len: usize,
        out: *mut u8,
        out_len: usize,
    ) -> Rendering;

    /// Packs cells into eight planes.
    pub fn cavzemil_pack(
        columns: u32,
        rows: u32,
        cells: *const u8,
        cells_len: usize,
        planes: *mut u8,
        planes_len: usize,
    ) -> u32;

    /// Unpacks eight planes into cells.
    pub fn cavzemil_unpack(
        columns: u32,
        rows: u32,
        planes: *const u8,
        planes_len: usize,
        cells: *mut u8,
        cells_len: usize,
    ) -> u32;

    /// The predicted colour from 24 values, X, Y, Z a colorant.
    pub fn cavzemil_predict(
        s: Screen,
        separation: u32,
        c: u8,
        m: u8,
        y: u8,
        primaries: *const f64,
        primaries_len: usize,
    ) -> Prediction;

    /// The predicted colour from 765 values, X, Y, Z a set of colorants.
    pub fn cavzemil_predict_cellular(
        s: Screen,
        separation: u32,
        c: u8,
        m: u8,
        y: u8,
        primaries: *const f64,
        primaries_len: usize,
    ) -> Cellular;

    /// The charge of a job from its windows' tallies, eight a window.
    pub fn cavzemil_charge_of(prices: Prices, tallies: *const u64, tallies_len: usize) -> Charge;
}
