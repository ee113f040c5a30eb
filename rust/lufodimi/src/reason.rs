use core::fmt::{self, Display, Formatter};
use lufodimi_sys::{
    LUFODIMI_ALL_WHOLE, LUFODIMI_CELL, LUFODIMI_COLUMN_TOTAL, LUFODIMI_DOWN, LUFODIMI_GRAND_TOTAL,
    LUFODIMI_ROW_TOTAL, LUFODIMI_UP,
};

/// Why an array of a plan has the weight that it has: the first entry that bears no more,
/// and how that entry is rounded in the array.
///
/// When planning comes to an array, each entry of what is left bears some weight of it
/// before it leaves its bounds, its limit. The smallest limit is the weight. First is the
/// one in the order of cells in row order, row totals, column totals, grand total.
///
/// It displays as a sentence without its end.
///
/// ```
/// use lufodimi::{Entry, Reason, Table};
///
/// let table = Table::new(2, 2, 10, [3, 4, 5, 6])?;
/// let reason = table.reason(2)?;
/// assert_eq!(reason, Reason::Down(Entry::RowTotal { row: 1 }));
/// assert_eq!(reason.to_string(), "the total of row 1, rounded down");
/// assert_eq!(table.reason(4)?.to_string(), "all entries are whole");
/// # Ok::<(), lufodimi::Refusal>(())
/// ```
#[derive(Clone, Copy, Debug, PartialEq, Eq, Hash)]
pub enum Reason {
    /// This entry, rounded down, bears no more.
    Down(Entry),
    /// This entry, rounded up, bears no more.
    Up(Entry),
    /// All entries are whole, and the array takes all the weight that is left. It is so
    /// just for the last array; the entry is the first cell.
    AllWhole(Entry),
}

/// An entry of a table, with row and column counted from 1.
///
/// ```
/// use lufodimi::Entry;
///
/// let cell = Entry::Cell { row: 1, column: 3 };
/// assert_eq!(cell.to_string(), "the cell in row 1 and column 3");
/// ```
#[derive(Clone, Copy, Debug, PartialEq, Eq, Hash)]
pub enum Entry {
    /// A cell.
    Cell {
        /// Its row, from 1.
        row: u32,
        /// Its column, from 1.
        column: u32,
    },
    /// The total of a row.
    RowTotal {
        /// The row, from 1.
        row: u32,
    },
    /// The total of a column.
    ColumnTotal {
        /// The column, from 1.
        column: u32,
    },
    /// The total of all cells.
    GrandTotal,
}

impl Reason {
    /// The entry, which is the first cell where all are whole.
    ///
    /// ```
    /// use lufodimi::{Entry, Table};
    ///
    /// let table = Table::new(1, 2, 4, [4, 6])?;
    /// assert_eq!(table.reason(1)?.entry(), Entry::Cell { row: 1, column: 2 });
    /// assert_eq!(table.reason(2)?.entry(), Entry::Cell { row: 1, column: 1 });
    /// # Ok::<(), lufodimi::Refusal>(())
    /// ```
    pub fn entry(self) -> Entry {
        match self {
            Reason::Down(entry) | Reason::Up(entry) | Reason::AllWhole(entry) => entry,
        }
    }

    /// The reason that the library wrote as four numbers: kind, row, column, direction.
    pub(crate) fn of([kind, row, column, direction]: [u32; 4]) -> Reason {
        let entry = match kind {
            LUFODIMI_CELL => Entry::Cell { row, column },
            LUFODIMI_ROW_TOTAL => Entry::RowTotal { row },
            LUFODIMI_COLUMN_TOTAL => Entry::ColumnTotal { column },
            LUFODIMI_GRAND_TOTAL => Entry::GrandTotal,
            // That there is no other kind, nor another direction, is proved of the library.
            _ => unreachable!("an entry is of one of four kinds"),
        };
        match direction {
            LUFODIMI_ALL_WHOLE => Reason::AllWhole(entry),
            LUFODIMI_DOWN => Reason::Down(entry),
            LUFODIMI_UP => Reason::Up(entry),
            _ => unreachable!("an entry is rounded down or up, or all are whole"),
        }
    }
}

impl Display for Entry {
    fn fmt(&self, formatter: &mut Formatter) -> fmt::Result {
        match self {
            Entry::Cell { row, column } => {
                write!(formatter, "the cell in row {row} and column {column}")
            }
            Entry::RowTotal { row } => write!(formatter, "the total of row {row}"),
            Entry::ColumnTotal { column } => write!(formatter, "the total of column {column}"),
            Entry::GrandTotal => formatter.write_str("the grand total"),
        }
    }
}

impl Display for Reason {
    fn fmt(&self, formatter: &mut Formatter) -> fmt::Result {
        match self {
            Reason::Down(entry) => write!(formatter, "{entry}, rounded down"),
            Reason::Up(entry) => write!(formatter, "{entry}, rounded up"),
            Reason::AllWhole(_) => formatter.write_str("all entries are whole"),
        }
    }
}

#[cfg(test)]
mod tests {
    use super::*;
    use alloc::string::ToString;

    #[test]
    fn every_kind_and_direction_has_its_sentence() {
        let sentence = |numbers| Reason::of(numbers).to_string();
        assert_eq!(
            sentence([1, 1, 3, 1]),
            "the cell in row 1 and column 3, rounded down"
        );
        assert_eq!(
            sentence([1, 12, 1, 2]),
            "the cell in row 12 and column 1, rounded up"
        );
        assert_eq!(sentence([2, 2, 0, 2]), "the total of row 2, rounded up");
        assert_eq!(
            sentence([3, 0, 3, 1]),
            "the total of column 3, rounded down"
        );
        assert_eq!(sentence([4, 0, 0, 2]), "the grand total, rounded up");
        assert_eq!(sentence([1, 1, 1, 0]), "all entries are whole");
    }

    #[test]
    fn a_reason_has_its_entry() {
        let first = Entry::Cell { row: 1, column: 1 };
        assert_eq!(Reason::of([1, 1, 1, 0]).entry(), first);
        let row = Entry::RowTotal { row: 2 };
        assert_eq!(Reason::of([2, 2, 0, 2]).entry(), row);
        let column = Entry::ColumnTotal { column: 3 };
        assert_eq!(Reason::of([3, 0, 3, 1]).entry(), column);
        assert_eq!(Reason::of([4, 0, 0, 1]).entry(), Entry::GrandTotal);
    }
}
