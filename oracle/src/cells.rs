//! Error cells as a call holds them since document 02's eleventh request: signed
//! 16-bit counts of sixteenths, three a pixel. The original's own cells are f32;
//! here stands how one is read as a count, for everything that compares the two.

/// No cell of a picture is larger, either way: 255 in sixteenths.
pub const LARGEST: i16 = 4080;

/// The count of sixteenths that a cell of the original is: sixteen times the cell,
/// exactly. What is no such count is told and never rounded to one: a cell that is
/// not a whole number of sixteenths, one beyond 255 either way, NaN, and minus zero,
/// which a count could not tell from zero.
pub fn sixteenths(cell: f32) -> Result<i16, String> {
    // This rounds toward zero, stops at the ends of i16 and turns NaN into 0. All of
    // that shows when the count is turned back, which is exact: the bits differ.
    let count = (16.0 * cell) as i16;
    let exact = (f32::from(count) / 16.0).to_bits() == cell.to_bits();
    if exact && (-LARGEST..=LARGEST).contains(&count) {
        return Ok(count);
    }
    Err(format!("{cell:?} (bits {:08x}) is no count of sixteenths from -{LARGEST} to {LARGEST}", cell.to_bits()))
}

/// The same for all cells of a picture; what is told names the first that is none.
pub fn counts(cells: &[f32]) -> Result<Vec<i16>, String> {
    let count = |(place, &cell)| sixteenths(cell).map_err(|wrong| format!("cell {place}: {wrong}"));
    cells.iter().enumerate().map(count).collect()
}
