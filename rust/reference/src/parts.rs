//! The calls that tell what a stored plan has. They go beyond the papers, whose
//! refusals they return: those of opening, then that of an array number, then that of a
//! short buffer.

use crate::rounding::write_counts;
use crate::{open, Refusal};

/// The sizes call: writes rows, columns, the number of arrays and the denominator.
pub fn sizes(bytes: &[u8], sizes: &mut [u32]) -> Result<(), Refusal> {
    let plan = open(bytes)?;
    let table = &plan.table;
    let numbers = [
        table.rows as u64,
        table.columns as u64,
        plan.arrays.len() as u64,
        table.denominator,
    ];
    write_numbers(&numbers, sizes)
}

/// The cells call: writes the cells of the table.
pub fn cells(bytes: &[u8], cells: &mut [u32]) -> Result<(), Refusal> {
    write_numbers(&open(bytes)?.table.cells, cells)
}

/// The array call: writes the weight and the counts of the array with this number,
/// counted from 1.
pub fn array(
    bytes: &[u8],
    number: u32,
    weight: &mut [u32],
    counts: &mut [u16],
) -> Result<(), Refusal> {
    let plan = open(bytes)?;
    let array = plan.array(number)?;
    if counts.len() < plan.table.size() {
        return Err(Refusal::ShortBuffer);
    }
    write_numbers(&[array.weight], weight)?;
    write_counts(&array.counts, counts);
    Ok(())
}

/// Writes numbers at the start of a lent buffer.
pub fn write_numbers(numbers: &[u64], buffer: &mut [u32]) -> Result<(), Refusal> {
    if buffer.len() < numbers.len() {
        return Err(Refusal::ShortBuffer);
    }
    for (place, &number) in buffer.iter_mut().zip(numbers) {
        *place = u32::try_from(number).expect("a stored number has at most 32 bits");
    }
    Ok(())
}
