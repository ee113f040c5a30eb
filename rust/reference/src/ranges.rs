//! The counts that an entry may be rounded to, and the first array whose entries keep to
//! theirs. The numbers have signs, so that corrections are rounded like tables.

use crate::entries;
use crate::flow::{circulation_exists, Edge};

/// The counts that an entry may have: from `down` to `up`, which differ by 1 at most.
#[derive(Clone, Copy, Debug)]
pub struct Range {
    down: i64,
    up: i64,
}

impl Range {
    /// An entry over the weight, rounded down, which is towards minus infinity, and rounded
    /// up; a whole entry stays.
    fn of(weight: i64, entry: i64) -> Range {
        Range {
            down: entry.div_euclid(weight),
            up: -(-entry).div_euclid(weight),
        }
    }

    fn contains(self, count: i64) -> bool {
        self.down <= count && count <= self.up
    }
}

/// The ranges of all entries of a table over the weight.
pub fn ranges_of(rows: usize, columns: usize, weight: i64, cells: &[i64]) -> Vec<Range> {
    entries(rows, columns, cells)
        .into_iter()
        .map(|entry| Range::of(weight, entry))
        .collect()
}

/// Whether every entry of the array, totals included, is in its range.
pub fn are_kept(rows: usize, columns: usize, ranges: &[Range], counts: &[i64]) -> bool {
    let of_array = entries(rows, columns, counts);
    ranges
        .iter()
        .zip(of_array)
        .all(|(range, count)| range.contains(count))
}

/// The first array that keeps to the ranges of a table, in row order with the smaller
/// count first.
///
/// Cells are fixed one after another: the smaller count if an array with this count and
/// the earlier ones exists, else the larger.
pub fn first_array(rows: usize, columns: usize, ranges: &[Range]) -> Vec<i64> {
    let cells = rows * columns;
    let mut fixed = ranges.to_vec();
    for cell in 0..cells {
        let Range { down, up } = fixed[cell];
        if down < up {
            fixed[cell].up = down;
            if !array_exists(rows, columns, &fixed) {
                fixed[cell] = Range { down: up, up };
            }
        }
    }
    let counts: Vec<i64> = fixed[..cells].iter().map(|range| range.up).collect();
    assert!(are_kept(rows, columns, ranges, &counts));
    counts
}

/// Whether an array exists whose entries, totals included, are in the given ranges.
///
/// An array is a circulation: a cell's count goes from its row to its column, a row
/// gets its total from a common node, a column hands its total to another one, and
/// the grand total goes from there back to the first.
fn array_exists(rows: usize, columns: usize, ranges: &[Range]) -> bool {
    let row_node = |row: usize| row;
    let column_node = |column: usize| rows + column;
    let (above_rows, below_columns) = (rows + columns, rows + columns + 1);
    let mut ends = Vec::new();
    for cell in 0..rows * columns {
        ends.push((row_node(cell / columns), column_node(cell % columns)));
    }
    ends.extend((0..rows).map(|row| (above_rows, row_node(row))));
    ends.extend((0..columns).map(|column| (column_node(column), below_columns)));
    ends.push((below_columns, above_rows));
    let edges: Vec<Edge> = ends
        .iter()
        .zip(ranges)
        .map(|(&(from, to), range)| Edge {
            from,
            to,
            least: range.down,
            most: range.up,
        })
        .collect();
    circulation_exists(rows + columns + 2, &edges)
}

#[cfg(test)]
mod tests {
    use super::Range;
    use tables::literal::check::ROUNDED;
    use tables::literal::{corrections, numbered};

    #[test]
    fn literal_entries_are_rounded() {
        for (number, row) in numbered(ROUNDED) {
            let range = Range::of(10, row.entry as i64);
            let bounds = [range.down, range.up].map(|bound| bound as u64);
            let counts = [0, 1, 2, 3, 4].map(|count| range.contains(count));
            let said = ([row.low, row.high], row.counts);
            assert_eq!((bounds, counts), said, "row {number}: {row:?}");
        }
    }

    #[test]
    fn literal_corrections_are_rounded() {
        for (number, row) in numbered(corrections::ROUNDED) {
            let range = Range::of(10, row.entry);
            let counts = [-3, -2, -1, 0, 1].map(|count| range.contains(count));
            let said = (row.low, row.high, row.counts);
            assert_eq!(
                (range.down, range.up, counts),
                said,
                "row {number}: {row:?}"
            );
        }
    }
}
