use crate::{rounding, Refusal, Table};
use alloc::vec::Vec;

/// A correction sheet, by how much the booked stock is off: a cell g, in row order, stands
/// for g over the denominator, and is negative where stock is missing.
///
/// Every `Corrections` is within the bounds, so it has a rounding. The bounds are those of
/// a [`Table`], but cells go down to -1000 times the denominator. It has no plan: a
/// correction is booked once, and nothing is drawn.
///
/// ```
/// use lufodimi::Corrections;
///
/// let sheet = Corrections::new(2, 2, 4, [-6, 1, 2, -3])?;
/// assert_eq!((sheet.rows(), sheet.columns(), sheet.denominator()), (2, 2, 4));
/// assert_eq!(sheet.cells(), [-6, 1, 2, -3]);
/// assert_eq!(sheet.round(), [-2, 0, 1, -1]);
/// # Ok::<(), lufodimi::Refusal>(())
/// ```
#[derive(Clone, Debug, PartialEq, Eq, Hash)]
pub struct Corrections {
    rows: u32,
    columns: u32,
    denominator: u32,
    cells: Vec<i32>,
}

impl Corrections {
    /// A correction sheet of rows times columns cells, in row order.
    ///
    /// ```
    /// use lufodimi::{Corrections, Refusal};
    ///
    /// assert!(Corrections::new(1, 2, 4, [-4000, 6]).is_ok());
    /// assert_eq!(Corrections::new(1, 2, 4, [-4001, 6]), Err(Refusal::LargeCell));
    /// ```
    ///
    /// # Errors
    ///
    /// [`Refusal::Size`], [`Refusal::Denominator`], [`Refusal::CellCount`] or
    /// [`Refusal::LargeCell`] if a bound does not hold.
    pub fn new(
        rows: u32,
        columns: u32,
        denominator: u32,
        cells: impl Into<Vec<i32>>,
    ) -> Result<Corrections, Refusal> {
        let corrections = Corrections {
            rows,
            columns,
            denominator,
            cells: cells.into(),
        };
        rounding::check(|counts| corrections.rounded(counts))?;
        Ok(corrections)
    }

    /// How many rows there are.
    ///
    /// ```
    /// assert_eq!(lufodimi::Corrections::new(1, 2, 4, [-4, 6])?.rows(), 1);
    /// # Ok::<(), lufodimi::Refusal>(())
    /// ```
    pub fn rows(&self) -> u32 {
        self.rows
    }

    /// How many columns there are.
    ///
    /// ```
    /// assert_eq!(lufodimi::Corrections::new(1, 2, 4, [-4, 6])?.columns(), 2);
    /// # Ok::<(), lufodimi::Refusal>(())
    /// ```
    pub fn columns(&self) -> u32 {
        self.columns
    }

    /// The denominator of every cell.
    ///
    /// ```
    /// assert_eq!(lufodimi::Corrections::new(1, 2, 4, [-4, 6])?.denominator(), 4);
    /// # Ok::<(), lufodimi::Refusal>(())
    /// ```
    pub fn denominator(&self) -> u32 {
        self.denominator
    }

    /// The cells, in row order.
    ///
    /// ```
    /// assert_eq!(lufodimi::Corrections::new(1, 2, 4, [-4, 6])?.cells(), [-4, 6]);
    /// # Ok::<(), lufodimi::Refusal>(())
    /// ```
    pub fn cells(&self) -> &[i32] {
        &self.cells
    }

    /// The first controlled rounding: counts in row order of which each, and each row,
    /// column and grand total, is the sheet's over the denominator, rounded down or up; a
    /// whole one stays. First is the one with the smaller count at the first cell where two
    /// differ, so that -1 goes before 0.
    ///
    /// Down is towards minus infinity: a half that is missing lies between -1 and 0.
    ///
    /// ```
    /// use lufodimi::Corrections;
    ///
    /// assert_eq!(Corrections::new(1, 1, 2, [-1])?.round(), [-1]);
    /// // their total is whole, and stays
    /// assert_eq!(Corrections::new(1, 2, 2, [-1, -1])?.round(), [-1, 0]);
    /// # Ok::<(), lufodimi::Refusal>(())
    /// ```
    pub fn round(&self) -> Vec<i16> {
        rounding::counts(self.cells.len(), |counts| self.rounded(counts))
    }

    /// Writes the first controlled rounding. Returns 0 or the refusal.
    fn rounded(&self, counts: &mut [i16]) -> u32 {
        lufodimi_sys::round_signed(
            self.rows,
            self.columns,
            self.denominator,
            &self.cells,
            counts,
        )
    }
}

/// A table is a correction sheet without negative cells, and has the same rounding.
///
/// ```
/// use lufodimi::{Corrections, Table};
///
/// let table = Table::new(2, 2, 2, [1, 1, 1, 1])?;
/// assert_eq!(table.round(), [0, 1, 1, 0]);
/// assert_eq!(Corrections::from(&table).round(), [0, 1, 1, 0]);
/// # Ok::<(), lufodimi::Refusal>(())
/// ```
impl From<&Table> for Corrections {
    fn from(table: &Table) -> Corrections {
        Corrections {
            rows: table.rows(),
            columns: table.columns(),
            denominator: table.denominator(),
            // A table's cell is at most 65,535,000.
            cells: table.cells().iter().map(|&cell| cell as i32).collect(),
        }
    }
}
