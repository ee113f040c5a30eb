//! The rounding of stock corrections, whose cells may be below 0 (02, F-7). Its refusals
//! are those of a table, with a bound on either side of 0, then that of a short buffer.

use crate::ranges::{are_kept, first_array, ranges_of};
use crate::table::accept_sizes;
use crate::Refusal;

/// The call that rounds corrections: writes the first controlled rounding of the table.
pub fn round_signed(
    rows: u32,
    columns: u32,
    denominator: u32,
    cells: &[i32],
    counts: &mut [i16],
) -> Result<(), Refusal> {
    accept_sizes(rows, columns, denominator, cells.len())?;
    let denominator = i64::from(denominator);
    let cells: Vec<i64> = cells.iter().copied().map(i64::from).collect();
    let bounds = -1000 * denominator..=1000 * denominator;
    if !cells.iter().all(|cell| bounds.contains(cell)) {
        return Err(Refusal::LargeCell);
    }
    if counts.len() < cells.len() {
        return Err(Refusal::ShortBuffer);
    }
    let first = first_signed_rounding(rows as usize, columns as usize, denominator, &cells);
    for (count, value) in counts.iter_mut().zip(first) {
        *count = i16::try_from(value).expect("a count is from -1000 to 1000");
    }
    Ok(())
}

/// Whether the array has one count a cell, and every entry of it, totals included, rounds
/// that of cells that may be below 0.
pub fn is_signed_rounding(
    rows: usize,
    columns: usize,
    denominator: i64,
    cells: &[i64],
    counts: &[i64],
) -> bool {
    let ranges = ranges_of(rows, columns, denominator, cells);
    counts.len() == cells.len() && are_kept(rows, columns, &ranges, counts)
}

/// The first controlled rounding of cells that may be below 0.
pub fn first_signed_rounding(
    rows: usize,
    columns: usize,
    denominator: i64,
    cells: &[i64],
) -> Vec<i64> {
    first_array(rows, columns, &ranges_of(rows, columns, denominator, cells))
}
