//! The first controlled rounding, and all of them, by a search through all arrays, without
//! a division, a range or a flow: for small tables.

use crate::entries;
use std::ops::RangeInclusive;

/// Counts that are tried for a cell: all that an accepted one can have, and some beyond.
const COUNTS: RangeInclusive<i64> = -1002..=1002;

/// The first array, in row order with the smaller count first, that is a controlled
/// rounding, if there is one. Each cell that is not whole doubles the arrays that are tried.
pub fn first_by_search(
    rows: usize,
    columns: usize,
    denominator: i64,
    cells: &[i64],
) -> Option<Vec<i64>> {
    let search = Search::of(rows, columns, denominator, cells);
    let choices: Vec<Vec<i64>> = cells.iter().map(|&cell| search.counts_of(cell)).collect();
    let mut counts = Vec::new();
    search.completes(&mut counts, &choices).then_some(counts)
}

/// All controlled roundings, in row order with the smaller count first.
///
/// Row by row, all counts that keep the row's cells and its total are put under all that
/// there are so far. Of these arrays those stay of which every entry rounds the table's, and
/// they are sorted.
pub fn all_by_search(
    rows: usize,
    columns: usize,
    denominator: i64,
    cells: &[i64],
) -> Vec<Vec<i64>> {
    let search = Search::of(rows, columns, denominator, cells);
    let mut all = vec![vec![]];
    for row in cells.chunks(columns) {
        all = continued(&all, &search.rows_of(row));
    }
    all.retain(|counts| search.is_rounding(counts));
    all.sort();
    all
}

/// Every one of the lists with every one of the others after it.
fn continued(lists: &[Vec<i64>], others: &[Vec<i64>]) -> Vec<Vec<i64>> {
    let mut all = Vec::new();
    for list in lists {
        all.extend(others.iter().map(|other| [&list[..], other].concat()));
    }
    all
}

/// A table and its entries.
struct Search {
    rows: usize,
    columns: usize,
    denominator: i64,
    entries: Vec<i64>,
}

impl Search {
    fn of(rows: usize, columns: usize, denominator: i64, cells: &[i64]) -> Search {
        Search {
            rows,
            columns,
            denominator,
            entries: entries(rows, columns, cells),
        }
    }

    /// Whether the count is the entry over the denominator, rounded down or up: the two
    /// whole numbers beside a fraction are less than 1 away from it, and of a whole number
    /// none but itself is.
    fn rounds(&self, entry: i64, count: i64) -> bool {
        (count * self.denominator - entry).abs() < self.denominator
    }

    /// The counts of a cell, the smaller one first.
    fn counts_of(&self, cell: i64) -> Vec<i64> {
        COUNTS.filter(|&count| self.rounds(cell, count)).collect()
    }

    /// The counts that a row by itself can have: those of its cells, if their total is right.
    fn rows_of(&self, cells: &[i64]) -> Vec<Vec<i64>> {
        let mut all = vec![vec![]];
        for &cell in cells {
            let counts = self.counts_of(cell).into_iter();
            all = continued(&all, &counts.map(|count| vec![count]).collect::<Vec<_>>());
        }
        all.retain(|counts| self.rounds(cells.iter().sum(), counts.iter().sum()));
        all
    }

    /// Completes the counts by one of each choice, the first that make a controlled
    /// rounding. If none do, the counts are as they were.
    fn completes(&self, counts: &mut Vec<i64>, choices: &[Vec<i64>]) -> bool {
        let Some((choice, others)) = choices.split_first() else {
            return self.is_rounding(counts);
        };
        for &count in choice {
            counts.push(count);
            if self.completes(counts, others) {
                return true;
            }
            counts.pop();
        }
        false
    }

    fn is_rounding(&self, counts: &[i64]) -> bool {
        let of_array = entries(self.rows, self.columns, counts);
        let mut both = self.entries.iter().zip(of_array);
        both.all(|(&entry, count)| self.rounds(entry, count))
    }
}
