//! Tables for tests, comparison and benchmark: those of the papers, random ones made
//! from a seed, and literal cases of the calls.

pub mod literal;
mod numbers;
pub mod papers;
mod random;

pub use numbers::Generator;
pub use random::corrections;
pub use random::{
    evenly_spread, random_denominator, random_table, random_table_of, random_table_over,
};

/// A table as a caller hands it over, whether it is accepted or not.
#[derive(Clone, Debug, PartialEq, Eq)]
pub struct GivenTable<Cell = u32> {
    pub rows: u32,
    pub columns: u32,
    pub denominator: u32,
    pub cells: Vec<Cell>,
}

/// A table of corrections, whose cells may be below 0.
pub type GivenCorrections = GivenTable<i32>;

impl<Cell: Copy> GivenTable<Cell> {
    /// A table by its rows of cells.
    pub fn by_rows<const COLUMNS: usize>(denominator: u32, rows: &[[Cell; COLUMNS]]) -> Self {
        GivenTable {
            rows: rows.len() as u32,
            columns: COLUMNS as u32,
            denominator,
            cells: rows.concat(),
        }
    }

    /// A table whose cells are all the same.
    pub fn uniform(rows: u32, columns: u32, denominator: u32, cell: Cell) -> Self {
        GivenTable {
            rows,
            columns,
            denominator,
            cells: vec![cell; (rows * columns) as usize],
        }
    }

    /// The table with every cell changed so.
    pub fn map<Other>(&self, change: impl FnMut(Cell) -> Other) -> GivenTable<Other> {
        GivenTable {
            rows: self.rows,
            columns: self.columns,
            denominator: self.denominator,
            cells: self.cells.iter().copied().map(change).collect(),
        }
    }
}

/// Two tables of one size as a caller hands them over to be pooled, accepted or not: rows
/// and columns are given once.
#[derive(Clone, Debug, PartialEq, Eq)]
pub struct GivenPair {
    pub rows: u32,
    pub columns: u32,
    pub first: GivenPart,
    pub second: GivenPart,
}

/// One of the two tables.
#[derive(Clone, Debug, PartialEq, Eq)]
pub struct GivenPart {
    pub denominator: u32,
    pub cells: Vec<u32>,
}

/// Every accepted number of rows with every accepted number of columns.
pub fn all_sizes() -> impl Iterator<Item = (u32, u32)> {
    (1..=12).flat_map(|rows| (1..=12).map(move |columns| (rows, columns)))
}
