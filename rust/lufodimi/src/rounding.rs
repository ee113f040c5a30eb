use crate::refusal::accepted;
use crate::{Refusal, Table};
use alloc::vec;
use alloc::vec::Vec;

/// The most cells of a table or of a correction sheet.
const MOST_CELLS: usize = (Table::MAX_ROWS * Table::MAX_COLUMNS) as usize;

/// Whether cells are within the bounds, by the call that rounds them and that tests the
/// bounds first. It gets room for the most counts.
pub(crate) fn check<Count: Copy + Default>(
    call: impl FnOnce(&mut [Count]) -> u32,
) -> Result<(), Refusal> {
    accepted(call(&mut [Count::default(); MOST_CELLS]))
}

/// The counts of as many cells, which are within the bounds, by the call that rounds them.
pub(crate) fn counts<Count: Copy + Default>(
    cells: usize,
    call: impl FnOnce(&mut [Count]) -> u32,
) -> Vec<Count> {
    let mut counts = vec![Count::default(); cells];
    // The bounds hold and there is a count for each cell: that no refusal applies then is
    // proved of the library.
    accepted(call(&mut counts)).expect("cells within the bounds have a controlled rounding");
    counts
}
