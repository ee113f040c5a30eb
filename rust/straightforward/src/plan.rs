use crate::matrix::{Matrix, SIDE};

/// One number for each entry: cells, row totals in the column after the last, column
/// totals in the row after the last, and the grand total where these two meet.
type Entries = [[u64; SIDE]; SIDE];

/// What remains of a table in a round.
struct Remaining {
    rows: usize,
    columns: usize,
    /// The remaining weight, which the entries are divided by.
    weight: u64,
    entry: Entries,
    /// The entries over the weight, rounded down.
    down: Entries,
    /// The entries that are not whole.
    fractional: [[bool; SIDE]; SIDE],
}

/// The plan of an accepted table: weights and counts in row order.
pub fn plan(rows: u32, columns: u32, denominator: u32, cells: &[u32]) -> Vec<(u64, Vec<u64>)> {
    let mut remaining = Remaining::of(rows, columns, denominator, cells);
    let mut arrays = Vec::new();
    while remaining.weight > 0 {
        remaining.divide();
        let counts = remaining.first_rounding();
        let weight = remaining.smallest_limit(&counts);
        remaining.lose(weight, &counts);
        arrays.push((weight, remaining.cells_of(&counts)));
    }
    arrays
}

impl Remaining {
    fn of(rows: u32, columns: u32, denominator: u32, cells: &[u32]) -> Remaining {
        let (rows, columns) = (rows as usize, columns as usize);
        let mut entry = [[0; SIDE]; SIDE];
        for row in 0..rows {
            for column in 0..columns {
                entry[row][column] = u64::from(cells[row * columns + column]);
            }
        }
        Remaining {
            rows,
            columns,
            weight: u64::from(denominator),
            entry: with_totals(rows, columns, entry),
            down: [[0; SIDE]; SIDE],
            fractional: [[false; SIDE]; SIDE],
        }
    }

    /// Divides every entry by the weight, once in a round.
    fn divide(&mut self) {
        for row in 0..=self.rows {
            for column in 0..=self.columns {
                let entry = self.entry[row][column];
                self.down[row][column] = entry / self.weight;
                self.fractional[row][column] = entry % self.weight != 0;
            }
        }
    }

    /// The first controlled rounding: a matrix of bits with the right sums, then cell
    /// by cell the smaller count where that is possible.
    fn first_rounding(&self) -> Entries {
        let mut matrix = self.empty_matrix();
        matrix.fill();
        for row in 0..self.rows {
            for column in 0..self.columns {
                matrix.fix(row, column);
            }
        }
        let mut counts = [[0; SIDE]; SIDE];
        for row in 0..self.rows {
            for column in 0..self.columns {
                counts[row][column] = self.down[row][column] + u64::from(matrix.bit[row][column]);
            }
        }
        with_totals(self.rows, self.columns, counts)
    }

    /// The matrix without any bit set. A cell and the grand total have the bit that
    /// is added to their entry rounded down, a row or column total the bit that is
    /// taken from its entry rounded up; so all sums are known.
    fn empty_matrix(&self) -> Matrix {
        Matrix {
            rows: self.rows + 1,
            columns: self.columns + 1,
            bit: [[false; SIDE]; SIDE],
            free: self.fractional,
            row_lacks: self.row_needs(),
            column_lacks: self.column_needs(),
        }
    }

    fn row_needs(&self) -> [u64; SIDE] {
        let mut needs = [0; SIDE];
        for row in 0..self.rows {
            let cells: u64 = self.down[row][..self.columns].iter().sum();
            needs[row] = self.up(row, self.columns) - cells;
        }
        let totals: u64 = (0..self.columns)
            .map(|column| self.up(self.rows, column))
            .sum();
        needs[self.rows] = totals - self.down[self.rows][self.columns];
        needs
    }

    fn column_needs(&self) -> [u64; SIDE] {
        let mut needs = [0; SIDE];
        for column in 0..self.columns {
            let cells: u64 = (0..self.rows).map(|row| self.down[row][column]).sum();
            needs[column] = self.up(self.rows, column) - cells;
        }
        let totals: u64 = (0..self.rows).map(|row| self.up(row, self.columns)).sum();
        needs[self.columns] = totals - self.down[self.rows][self.columns];
        needs
    }

    /// An entry over the weight, rounded up.
    fn up(&self, row: usize, column: usize) -> u64 {
        self.down[row][column] + u64::from(self.fractional[row][column])
    }

    fn smallest_limit(&self, counts: &Entries) -> u64 {
        let mut smallest = self.weight;
        for row in 0..=self.rows {
            for column in 0..=self.columns {
                let entry = self.entry[row][column];
                let count = counts[row][column];
                let limit = if count == self.down[row][column] {
                    (count + 1) * self.weight - entry
                } else {
                    entry - (count - 1) * self.weight
                };
                smallest = smallest.min(limit);
            }
        }
        smallest
    }

    /// Takes the weighted array off what remains.
    fn lose(&mut self, weight: u64, counts: &Entries) {
        for row in 0..=self.rows {
            for column in 0..=self.columns {
                self.entry[row][column] -= weight * counts[row][column];
            }
        }
        self.weight -= weight;
    }

    fn cells_of(&self, counts: &Entries) -> Vec<u64> {
        (0..self.rows)
            .flat_map(|row| &counts[row][..self.columns])
            .copied()
            .collect()
    }
}

/// Fills in the totals.
fn with_totals(rows: usize, columns: usize, mut entry: Entries) -> Entries {
    for row in 0..rows {
        for column in 0..columns {
            let value = entry[row][column];
            entry[row][columns] += value;
            entry[rows][column] += value;
            entry[rows][columns] += value;
        }
    }
    entry
}
