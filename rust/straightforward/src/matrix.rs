/// Twelve rows or columns and one for the totals.
pub const SIDE: usize = 13;

/// A matrix of bits on its way to given row and column sums.
pub struct Matrix {
    pub rows: usize,
    pub columns: usize,
    pub bit: [[bool; SIDE]; SIDE],
    /// The bits that may still change.
    pub free: [[bool; SIDE]; SIDE],
    /// How many more bits a row or column needs.
    pub row_lacks: [u64; SIDE],
    pub column_lacks: [u64; SIDE],
}

/// Stands for a row or column that the search has not reached.
const NOT_REACHED: usize = SIDE;

/// A search for an alternating path from a row that lacks a bit.
struct Search {
    start: usize,
    /// The column that the search came to a row from, and the row it came to a column from.
    row_from: [usize; SIDE],
    column_from: [usize; SIDE],
    /// The rows reached, in the order in which they are looked at.
    queue: [usize; SIDE],
    queued: usize,
}

impl Search {
    fn from_row(start: usize) -> Search {
        let mut queue = [NOT_REACHED; SIDE];
        queue[0] = start;
        Search {
            start,
            row_from: [NOT_REACHED; SIDE],
            column_from: [NOT_REACHED; SIDE],
            queue,
            queued: 1,
        }
    }
}

impl Matrix {
    /// Sets bits until no row lacks one. The needs must be those of a table.
    pub fn fill(&mut self) {
        for row in 0..self.rows {
            while self.row_lacks[row] > 0 {
                let found = self.supply(row);
                assert!(found, "every table has a controlled rounding");
            }
        }
    }

    /// Fixes a bit at 0 if the matrix can be repaired without it, else as it is.
    pub fn fix(&mut self, row: usize, column: usize) {
        if !self.free[row][column] {
            return;
        }
        self.free[row][column] = false;
        if self.bit[row][column] {
            self.bit[row][column] = false;
            self.row_lacks[row] += 1;
            self.column_lacks[column] += 1;
            if !self.supply(row) {
                self.bit[row][column] = true;
                self.row_lacks[row] -= 1;
                self.column_lacks[column] -= 1;
            }
        }
    }

    /// Gives one more bit to a row and to some column, both lacking one, along an
    /// alternating path. Says whether there is such a path.
    fn supply(&mut self, start: usize) -> bool {
        let mut search = Search::from_row(start);
        let mut looked_at = 0;
        while looked_at < search.queued {
            let row = search.queue[looked_at];
            looked_at += 1;
            for column in 0..self.columns {
                let raisable = self.free[row][column] && !self.bit[row][column];
                if !raisable || search.column_from[column] != NOT_REACHED {
                    continue;
                }
                search.column_from[column] = row;
                if self.column_lacks[column] > 0 {
                    self.change_path(&search, column);
                    return true;
                }
                self.queue_rows(&mut search, column);
            }
        }
        false
    }

    /// Queues the rows not reached yet whose bit in the column can be lowered.
    fn queue_rows(&self, search: &mut Search, column: usize) {
        for row in 0..self.rows {
            let lowerable = self.free[row][column] && self.bit[row][column];
            if lowerable && row != search.start && search.row_from[row] == NOT_REACHED {
                search.row_from[row] = column;
                search.queue[search.queued] = row;
                search.queued += 1;
            }
        }
    }

    /// Walks back from the column to the start, raising and lowering by turns.
    fn change_path(&mut self, search: &Search, end: usize) {
        self.row_lacks[search.start] -= 1;
        self.column_lacks[end] -= 1;
        let mut column = end;
        loop {
            let row = search.column_from[column];
            self.bit[row][column] = true;
            if row == search.start {
                return;
            }
            column = search.row_from[row];
            self.bit[row][column] = false;
        }
    }
}
