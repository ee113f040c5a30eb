mod error;

pub use error::PoolError;

use crate::refusal::accepted;
use crate::{rounding, Reason, Refusal, Roundings};
use alloc::vec;
use alloc::vec::Vec;

/// A table of expected counts: a cell g, in row order, stands for g over the denominator.
///
/// Every `Table` is within the bounds, so it has a rounding and a plan.
///
/// ```
/// use lufodimi::Table;
///
/// let table = Table::new(2, 3, 10, [1, 2, 3, 4, 5, 6])?;
/// assert_eq!((table.rows(), table.columns(), table.denominator()), (2, 3, 10));
/// assert_eq!(table.cells(), [1, 2, 3, 4, 5, 6]);
/// # Ok::<(), lufodimi::Refusal>(())
/// ```
#[derive(Clone, Debug, PartialEq, Eq, Hash)]
pub struct Table {
    rows: u32,
    columns: u32,
    denominator: u32,
    cells: Vec<u32>,
}

impl Table {
    /// The most rows.
    ///
    /// ```
    /// assert_eq!(lufodimi::Table::MAX_ROWS, 12);
    /// ```
    pub const MAX_ROWS: u32 = 12;

    /// The most columns.
    ///
    /// ```
    /// assert_eq!(lufodimi::Table::MAX_COLUMNS, 12);
    /// ```
    pub const MAX_COLUMNS: u32 = 12;

    /// The largest denominator.
    ///
    /// ```
    /// assert_eq!(lufodimi::Table::MAX_DENOMINATOR, 65_535);
    /// ```
    pub const MAX_DENOMINATOR: u32 = 65_535;

    /// The largest expected count: a cell is at most this times the denominator.
    ///
    /// ```
    /// assert_eq!(lufodimi::Table::MAX_COUNT, 1000);
    /// ```
    pub const MAX_COUNT: u32 = 1000;

    /// The most rows of a table that is walked through.
    ///
    /// ```
    /// assert_eq!(lufodimi::Table::MAX_WALK_ROWS, 4);
    /// ```
    pub const MAX_WALK_ROWS: u32 = 4;

    /// The most columns of a table that is walked through.
    ///
    /// ```
    /// assert_eq!(lufodimi::Table::MAX_WALK_COLUMNS, 4);
    /// ```
    pub const MAX_WALK_COLUMNS: u32 = 4;

    /// A table of rows times columns cells, in row order.
    ///
    /// ```
    /// use lufodimi::{Refusal, Table};
    ///
    /// assert!(Table::new(1, 2, 4, [4, 6]).is_ok());
    /// assert_eq!(Table::new(1, 2, 4, [4]), Err(Refusal::CellCount));
    /// ```
    ///
    /// # Errors
    ///
    /// [`Refusal::Size`], [`Refusal::Denominator`], [`Refusal::CellCount`] or
    /// [`Refusal::LargeCell`] if a bound does not hold.
    pub fn new(
        rows: u32,
        columns: u32,
        denominator: u32,
        cells: impl Into<Vec<u32>>,
    ) -> Result<Table, Refusal> {
        let table = Table {
            rows,
            columns,
            denominator,
            cells: cells.into(),
        };
        rounding::check(|counts| table.rounded(counts))?;
        Ok(table)
    }

    /// The table of a plan that the library opened, whose bounds it checked.
    pub(crate) fn opened(rows: u32, columns: u32, denominator: u32, cells: Vec<u32>) -> Table {
        Table {
            rows,
            columns,
            denominator,
            cells,
        }
    }

    /// How many rows there are.
    ///
    /// ```
    /// assert_eq!(lufodimi::Table::new(1, 2, 4, [4, 6])?.rows(), 1);
    /// # Ok::<(), lufodimi::Refusal>(())
    /// ```
    pub fn rows(&self) -> u32 {
        self.rows
    }

    /// How many columns there are.
    ///
    /// ```
    /// assert_eq!(lufodimi::Table::new(1, 2, 4, [4, 6])?.columns(), 2);
    /// # Ok::<(), lufodimi::Refusal>(())
    /// ```
    pub fn columns(&self) -> u32 {
        self.columns
    }

    /// The denominator of every cell.
    ///
    /// ```
    /// assert_eq!(lufodimi::Table::new(1, 2, 4, [4, 6])?.denominator(), 4);
    /// # Ok::<(), lufodimi::Refusal>(())
    /// ```
    pub fn denominator(&self) -> u32 {
        self.denominator
    }

    /// The cells, in row order.
    ///
    /// ```
    /// assert_eq!(lufodimi::Table::new(1, 2, 4, [4, 6])?.cells(), [4, 6]);
    /// # Ok::<(), lufodimi::Refusal>(())
    /// ```
    pub fn cells(&self) -> &[u32] {
        &self.cells
    }

    /// The first controlled rounding: counts in row order of which each, and each row,
    /// column and grand total, is the expected one rounded down or up. First is the one
    /// with the smaller count at the first cell where two differ.
    ///
    /// ```
    /// assert_eq!(lufodimi::Table::new(2, 2, 2, [1, 1, 1, 1])?.round(), [0, 1, 1, 0]);
    /// # Ok::<(), lufodimi::Refusal>(())
    /// ```
    pub fn round(&self) -> Vec<u16> {
        rounding::counts(self.cells.len(), |counts| self.rounded(counts))
    }

    /// All controlled roundings of the table, each exactly once: those with the smaller count
    /// at the first cell, in row order, where two differ come first, so that it begins with
    /// [`round`](Table::round).
    ///
    /// ```
    /// use lufodimi::{Refusal, Table};
    ///
    /// let table = Table::new(2, 2, 10, [3, 4, 5, 6])?;
    /// let all = [[0, 0, 0, 1], [0, 0, 1, 1], [0, 1, 1, 0], [1, 0, 0, 1]];
    /// assert!(table.roundings()?.eq(all));
    ///
    /// let large = Table::new(5, 1, 2, [1; 5])?;
    /// assert_eq!(large.roundings().err(), Some(Refusal::WalkSize));
    /// # Ok::<(), Refusal>(())
    /// ```
    ///
    /// # Errors
    ///
    /// [`Refusal::WalkSize`] if there are more than four rows or more than four columns.
    pub fn roundings(&self) -> Result<Roundings<'_>, Refusal> {
        Roundings::of(self)
    }

    /// The controlled roundings of the table after one of them, so that a walk can be gone on
    /// with; none if it is the last. It also tells whether an array is a controlled rounding.
    ///
    /// ```
    /// use lufodimi::{Refusal, Table};
    ///
    /// let table = Table::new(2, 2, 10, [3, 4, 5, 6])?;
    /// assert!(table.roundings_after(&[0, 0, 1, 1])?.eq([[0, 1, 1, 0], [1, 0, 0, 1]]));
    /// assert_eq!(table.roundings_after(&[1, 0, 0, 1])?.next(), None);
    ///
    /// let refused = table.roundings_after(&[0, 0, 0, 0]).err();
    /// assert_eq!(refused, Some(Refusal::NotRounding));
    /// # Ok::<(), Refusal>(())
    /// ```
    ///
    /// # Errors
    ///
    /// [`Refusal::WalkSize`] if there are more than four rows or more than four columns, and
    /// [`Refusal::NotRounding`] if the array is no controlled rounding of the table or has
    /// another length.
    pub fn roundings_after(&self, array: &[u16]) -> Result<Roundings<'_>, Refusal> {
        Roundings::after(self, array)
    }

    /// The pooled table of this one and another of the same rows and columns. Its
    /// denominator is the least common multiple of the two, and each of its expected
    /// counts is exactly the sum of theirs.
    ///
    /// ```
    /// use lufodimi::{PoolError, Table};
    ///
    /// let standing = Table::new(1, 2, 10, [3, 4])?;
    /// let list = Table::new(1, 2, 4, [1, 2])?;
    /// assert_eq!(standing.pool(&list)?, Table::new(1, 2, 20, [11, 18])?);
    ///
    /// let other_size = Table::new(2, 1, 4, [1, 2])?;
    /// assert_eq!(standing.pool(&other_size), Err(PoolError::Sizes));
    /// # Ok::<(), PoolError>(())
    /// ```
    ///
    /// # Errors
    ///
    /// [`PoolError::Sizes`] if rows or columns are not the same in both, which is found
    /// out before the library is asked; [`PoolError::Refused`] with
    /// [`Refusal::Multiple`] if the least common multiple is above 65,535, and with
    /// [`Refusal::PooledCell`] if a pooled cell is above 1000 times the multiple.
    pub fn pool(&self, other: &Table) -> Result<Table, PoolError> {
        if (self.rows, self.columns) != (other.rows, other.columns) {
            return Err(PoolError::Sizes);
        }
        let (mut denominator, mut cells) = ([0], vec![0; self.cells.len()]);
        accepted(lufodimi_sys::pool(
            self.rows,
            self.columns,
            self.denominator,
            &self.cells,
            other.denominator,
            &other.cells,
            &mut denominator,
            &mut cells,
        ))?;
        // That what is pooled without a refusal is within the bounds of a table is proved
        // of the library.
        Ok(Table {
            denominator: denominator[0],
            cells,
            ..*self
        })
    }

    /// Why an array of the table's plan, counted from 1, has the weight that it has: the
    /// first entry that bears no more weight of the array.
    ///
    /// ```
    /// use lufodimi::{Refusal, Table};
    ///
    /// let table = Table::new(2, 2, 10, [3, 4, 5, 6])?;
    /// let reason = table.reason(1)?;
    /// assert_eq!(reason.to_string(), "the total of column 1, rounded down");
    /// assert_eq!(table.reason(5), Err(Refusal::Array));
    /// # Ok::<(), Refusal>(())
    /// ```
    ///
    /// The plan is that of [`Plan::of`](crate::Plan::of): somebody else's plan of the same
    /// table may have other arrays, of which this tells nothing.
    ///
    /// # Errors
    ///
    /// [`Refusal::Array`] if the number is 0 or above the number of arrays.
    pub fn reason(&self, array: u32) -> Result<Reason, Refusal> {
        let mut reply = [0; 4];
        accepted(lufodimi_sys::reason(
            self.rows,
            self.columns,
            self.denominator,
            &self.cells,
            array,
            &mut reply,
        ))?;
        Ok(Reason::of(reply))
    }

    /// Writes the first controlled rounding. Returns 0 or the refusal.
    fn rounded(&self, counts: &mut [u16]) -> u32 {
        lufodimi_sys::round(
            self.rows,
            self.columns,
            self.denominator,
            &self.cells,
            counts,
        )
    }
}
