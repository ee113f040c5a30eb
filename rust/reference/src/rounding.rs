use crate::corrections::{first_signed_rounding, is_signed_rounding};
use crate::{Refusal, Table};

/// The rounding call: writes the first controlled rounding of the table.
pub fn round(
    rows: u32,
    columns: u32,
    denominator: u32,
    cells: &[u32],
    counts: &mut [u16],
) -> Result<(), Refusal> {
    let table = Table::accept(rows, columns, denominator, cells)?;
    if counts.len() < table.size() {
        return Err(Refusal::ShortBuffer);
    }
    let first = first_rounding(table.rows, table.columns, table.denominator, &table.cells);
    write_counts(&first, counts);
    Ok(())
}

/// Writes an array at the start of a lent buffer.
pub fn write_counts(array: &[u64], counts: &mut [u16]) {
    for (count, &value) in counts.iter_mut().zip(array) {
        *count = u16::try_from(value).expect("a count has 16 bits");
    }
}

/// Whether the array has one count a cell, and every entry of it, totals included,
/// rounds the table's entry.
pub fn is_controlled_rounding(
    rows: usize,
    columns: usize,
    weight: u64,
    cells: &[u64],
    counts: &[u64],
) -> bool {
    is_signed_rounding(
        rows,
        columns,
        weight as i64,
        &signed(cells),
        &signed(counts),
    )
}

/// The first controlled rounding, in row order with the smaller count first.
pub fn first_rounding(rows: usize, columns: usize, weight: u64, cells: &[u64]) -> Vec<u64> {
    first_signed_rounding(rows, columns, weight as i64, &signed(cells))
        .into_iter()
        .map(|count| u64::try_from(count).expect("no cell is below 0"))
        .collect()
}

/// The same numbers as ranges have them.
fn signed(numbers: &[u64]) -> Vec<i64> {
    let number = |&number| i64::try_from(number).expect("the numbers of a table are far smaller");
    numbers.iter().map(number).collect()
}
