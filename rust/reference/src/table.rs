use crate::Refusal;
use std::iter::Sum;
use std::ops::RangeInclusive;

/// A table. Cell g, in row order, stands for the expected count g / denominator.
#[derive(Clone, Debug, PartialEq, Eq)]
pub struct Table {
    pub rows: usize,
    pub columns: usize,
    pub denominator: u64,
    pub cells: Vec<u64>,
}

impl Table {
    pub const ROWS: RangeInclusive<u64> = 1..=12;
    pub const COLUMNS: RangeInclusive<u64> = 1..=12;
    pub const ARRAYS: RangeInclusive<u64> = 1..=170;
    pub const DENOMINATORS: RangeInclusive<u64> = 1..=65_535;

    /// The table of a caller, or the first of the refusals 1 to 4 that applies.
    pub fn accept(
        rows: u32,
        columns: u32,
        denominator: u32,
        cells: &[u32],
    ) -> Result<Table, Refusal> {
        accept_sizes(rows, columns, denominator, cells.len())?;
        let table = Table {
            rows: rows as usize,
            columns: columns as usize,
            denominator: u64::from(denominator),
            cells: cells.iter().map(|&cell| u64::from(cell)).collect(),
        };
        if !table.cells_within_bound() {
            return Err(Refusal::LargeCell);
        }
        Ok(table)
    }

    /// The number of cells that rows and columns ask for.
    pub fn size(&self) -> usize {
        self.rows * self.columns
    }

    pub fn cells_within_bound(&self) -> bool {
        self.cells
            .iter()
            .all(|&cell| cell <= 1000 * self.denominator)
    }
}

/// The first of the refusals 1 to 3 that applies: what is asked of a table whatever its
/// cells are.
pub fn accept_sizes(
    rows: u32,
    columns: u32,
    denominator: u32,
    cells: usize,
) -> Result<(), Refusal> {
    accept_rows_and_columns(rows, columns)?;
    let [rows, columns, denominator] = [rows, columns, denominator].map(u64::from);
    if !Table::DENOMINATORS.contains(&denominator) {
        Err(Refusal::Denominator)
    } else if cells as u64 != rows * columns {
        Err(Refusal::CellCount)
    } else {
        Ok(())
    }
}

/// Refusal 1, if it applies.
pub fn accept_rows_and_columns(rows: u32, columns: u32) -> Result<(), Refusal> {
    if Table::ROWS.contains(&u64::from(rows)) && Table::COLUMNS.contains(&u64::from(columns)) {
        Ok(())
    } else {
        Err(Refusal::Size)
    }
}

/// Cells, row totals, column totals and grand total, in this order.
pub fn entries<N: Copy + Sum>(rows: usize, columns: usize, cells: &[N]) -> Vec<N> {
    let total = |places: Vec<usize>| places.iter().map(|&place| cells[place]).sum::<N>();
    let row = |row: usize| (0..columns).map(|column| row * columns + column).collect();
    let column = |column: usize| (0..rows).map(|row| row * columns + column).collect();
    let mut all = cells.to_vec();
    all.extend((0..rows).map(row).map(total));
    all.extend((0..columns).map(column).map(total));
    all.push(cells.iter().copied().sum());
    all
}
