//! The walk through all controlled roundings of a small table (02, F-8). Both calls list
//! them all. Their refusals are that of a size, then 15, then the others of a table, then
//! 16, then that of a short buffer.

use crate::search::all_by_search;
use crate::table::accept_rows_and_columns;
use crate::{Refusal, Table};

/// The most rows and the most columns of a table that is walked through.
const LARGEST: u32 = 4;

/// Where a walk stands after the second call.
#[derive(Clone, Copy, Debug, PartialEq, Eq)]
pub enum Step {
    /// The next array is written.
    Next,
    /// The array handed in was the last, and nothing is written.
    Last,
}

impl Step {
    /// The number that the second call returns.
    pub fn number(self) -> u32 {
        match self {
            Step::Next => 0,
            Step::Last => 255,
        }
    }
}

/// The controlled roundings of a table, from the first to the last.
#[derive(Clone, Debug, PartialEq, Eq)]
pub struct Walk {
    arrays: Vec<Vec<u16>>,
    size: usize,
}

impl Walk {
    /// That of a caller's table, or the first of the refusals 1, 15, 2, 3 and 4 that applies.
    pub fn accept(
        rows: u32,
        columns: u32,
        denominator: u32,
        cells: &[u32],
    ) -> Result<Walk, Refusal> {
        accept_rows_and_columns(rows, columns)?;
        if rows > LARGEST || columns > LARGEST {
            return Err(Refusal::WalkSize);
        }
        let table = Table::accept(rows, columns, denominator, cells)?;
        let cells: Vec<i64> = cells.iter().copied().map(i64::from).collect();
        let denominator = i64::from(denominator);
        let arrays = all_by_search(table.rows, table.columns, denominator, &cells)
            .iter()
            .map(|counts| counts.iter().map(|&count| narrow(count)).collect())
            .collect();
        Ok(Walk {
            arrays,
            size: table.size(),
        })
    }

    /// The arrays, in the stated order.
    pub fn arrays(&self) -> &[Vec<u16>] {
        &self.arrays
    }

    /// Writes the first array.
    pub fn first(&self, counts: &mut [u16]) -> Result<(), Refusal> {
        let room = self.room(counts)?;
        room.copy_from_slice(&self.arrays[0]);
        Ok(())
    }

    /// Writes the array after this one, unless it is the last.
    pub fn next(&self, array: &[u16], counts: &mut [u16]) -> Result<Step, Refusal> {
        let mut places = 0..self.arrays.len();
        let place = places
            .find(|&place| self.arrays[place] == array)
            .ok_or(Refusal::NotRounding)?;
        let room = self.room(counts)?;
        let Some(next) = self.arrays.get(place + 1) else {
            return Ok(Step::Last);
        };
        room.copy_from_slice(next);
        Ok(Step::Next)
    }

    /// The part of a lent buffer that an array takes.
    fn room<'b>(&self, counts: &'b mut [u16]) -> Result<&'b mut [u16], Refusal> {
        counts.get_mut(..self.size).ok_or(Refusal::ShortBuffer)
    }
}

/// A count as it is lent.
fn narrow(count: i64) -> u16 {
    u16::try_from(count).expect("a count is from 0 to 1000")
}

/// The first call: writes the first controlled rounding of the table.
pub fn walk_first(
    rows: u32,
    columns: u32,
    denominator: u32,
    cells: &[u32],
    counts: &mut [u16],
) -> Result<(), Refusal> {
    Walk::accept(rows, columns, denominator, cells)?.first(counts)
}

/// The second call: writes the controlled rounding after the one that is handed in, or
/// says that it was the last.
pub fn walk_next(
    rows: u32,
    columns: u32,
    denominator: u32,
    cells: &[u32],
    array: &[u16],
    counts: &mut [u16],
) -> Result<Step, Refusal> {
    Walk::accept(rows, columns, denominator, cells)?.next(array, counts)
}
