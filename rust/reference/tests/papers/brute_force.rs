//! Roundings, plans and the reasons of weights against a search through all arrays.

use crate::samples::{planned_arrays, reasons, table};
use reference::{entries, first_rounding, Table};
use tables::papers::WeightedArrays;
use tables::Generator;

/// Each entry, in the words of the specification: over the weight, rounded down or
/// up, and a whole entry stays.
fn is_rounding(rows: usize, columns: usize, weight: u64, cells: &[u64], counts: &[u64]) -> bool {
    let table_entries = entries(rows, columns, cells);
    let array_entries = entries(rows, columns, counts);
    table_entries
        .iter()
        .zip(array_entries)
        .all(|(entry, count)| {
            let whole = entry % weight == 0;
            count == entry / weight || (!whole && count == entry / weight + 1)
        })
}

/// The controlled roundings among all arrays with counts up to the largest cell's,
/// rounded up, in the stated order.
pub fn all_roundings(rows: usize, columns: usize, weight: u64, cells: &[u64]) -> Vec<Vec<u64>> {
    let largest = cells.iter().max().expect("a table has cells");
    let values = largest.div_ceil(weight) + 1;
    let size = (rows * columns) as u32;
    let array = |index: u64| -> Vec<u64> {
        (0..size)
            .rev()
            .map(|place| index / values.pow(place) % values)
            .collect()
    };
    (0..values.pow(size))
        .map(array)
        .filter(|counts| is_rounding(rows, columns, weight, cells, counts))
        .collect()
}

/// A round: the entries of the remaining table, the weight that they are over, and the
/// entries of the array.
struct Round {
    entries: Vec<u64>,
    weight: u64,
    counts: Vec<u64>,
}

impl Round {
    /// The first entry that does not stay between its rounded values if the array takes
    /// this part of the weight.
    fn first_beyond(&self, part: u64) -> Option<usize> {
        let left = self.weight - part;
        let stays_between = |entry: u64, count: u64| {
            let down = entry / self.weight;
            let up = entry.div_ceil(self.weight);
            down * left + part * count <= entry && entry <= up * left + part * count
        };
        let mut places = 0..self.entries.len();
        places.find(|&place| !stays_between(self.entries[place], self.counts[place]))
    }

    /// The largest part of the weight that the array can take while every entry stays
    /// between its rounded values.
    fn largest_weight(&self) -> u64 {
        let fits_all = |part: &u64| self.first_beyond(*part).is_none();
        (1..=self.weight).rev().find(fits_all).expect("1 fits")
    }

    /// What keeps the array from taking one more: the first entry that would not stay, and
    /// whether its count is below it, 1, or above it, 2. If no weight is left to take, the
    /// first entry and 0.
    fn what_keeps(&self) -> (usize, u32) {
        let part = self.largest_weight();
        if part == self.weight {
            return (0, 0);
        }
        let place = self.first_beyond(part + 1).expect("an entry keeps it");
        let is_below = self.counts[place] * self.weight < self.entries[place];
        (place, if is_below { 1 } else { 2 })
    }
}

/// Kind, row and column of the entry at a place.
fn name_of(rows: usize, columns: usize, place: usize) -> [u32; 3] {
    let cells = rows * columns;
    let name = if place < cells {
        [1, place / columns + 1, place % columns + 1]
    } else if place < cells + rows {
        [2, place - cells + 1, 0]
    } else if place < cells + rows + columns {
        [3, 0, place - cells - rows + 1]
    } else {
        [4, 0, 0]
    };
    name.map(|number| number as u32)
}

/// The plan by brute force: weights and counts, and the reason of each weight.
fn plan_by_brute_force(table: &Table) -> (WeightedArrays, Vec<[u32; 4]>) {
    let (rows, columns) = (table.rows, table.columns);
    let mut cells = table.cells.clone();
    let mut left = table.denominator;
    let (mut arrays, mut reasons) = (Vec::new(), Vec::new());
    while left > 0 {
        let counts = all_roundings(rows, columns, left, &cells).remove(0);
        let round = Round {
            entries: entries(rows, columns, &cells),
            weight: left,
            counts: entries(rows, columns, &counts),
        };
        let (place, direction) = round.what_keeps();
        let [kind, row, column] = name_of(rows, columns, place);
        reasons.push([kind, row, column, direction]);
        let weight = round.largest_weight();
        for (cell, count) in cells.iter_mut().zip(&counts) {
            *cell -= weight * count;
        }
        left -= weight;
        arrays.push((weight, counts));
    }
    (arrays, reasons)
}

fn assert_same_as_brute_force(table: &Table) {
    let found = (planned_arrays(table), reasons(table));
    assert_eq!(found, plan_by_brute_force(table), "{table:?}");
}

/// Calls the check for every table of this size with cells up to the largest.
pub fn for_all_tables(rows: u32, columns: u32, denominator: u32, largest: u32, check: fn(&Table)) {
    let size = rows * columns;
    let values = largest + 1;
    for index in 0..values.pow(size) {
        let cells: Vec<u32> = (0..size)
            .map(|place| index / values.pow(place) % values)
            .collect();
        check(&table(rows, columns, denominator, &cells));
    }
}

#[test]
fn all_plans_of_one_cell() {
    for denominator in 1..=12 {
        for_all_tables(1, 1, denominator, 30, assert_same_as_brute_force);
    }
}

#[test]
fn all_plans_of_two_cells() {
    for denominator in 1..=7 {
        for_all_tables(1, 2, denominator, 15, assert_same_as_brute_force);
        for_all_tables(2, 1, denominator, 15, assert_same_as_brute_force);
    }
}

#[test]
fn all_plans_of_three_cells_in_a_line() {
    for denominator in 1..=5 {
        for_all_tables(1, 3, denominator, 6, assert_same_as_brute_force);
        for_all_tables(3, 1, denominator, 6, assert_same_as_brute_force);
    }
}

#[test]
fn all_plans_of_two_by_two() {
    for denominator in 1..=5 {
        for_all_tables(2, 2, denominator, 6, assert_same_as_brute_force);
    }
}

#[test]
fn all_plans_of_two_by_three_with_cells_up_to_two() {
    for denominator in 2..=5 {
        for_all_tables(2, 3, denominator, 2, assert_same_as_brute_force);
        for_all_tables(3, 2, denominator, 2, assert_same_as_brute_force);
    }
}

#[test]
fn random_plans_of_up_to_three_by_three() {
    let mut generator = Generator::new(31);
    for _ in 0..800 {
        let rows = generator.between(1, 3) as u32;
        let columns = generator.between(1, 3) as u32;
        let denominator = generator.between(1, 60) as u32;
        let cells: Vec<u32> = (0..rows * columns)
            .map(|_| generator.below(u64::from(denominator)) as u32)
            .collect();
        assert_same_as_brute_force(&table(rows, columns, denominator, &cells));
    }
}

#[test]
fn random_plans_of_up_to_three_by_three_with_cells_above_one() {
    let mut generator = Generator::new(32);
    for _ in 0..200 {
        let rows = generator.between(1, 3) as u32;
        let columns = generator.between(1, 3) as u32;
        let denominator = generator.between(1, 9) as u32;
        let cells: Vec<u32> = (0..rows * columns)
            .map(|_| generator.between(0, 2 * u64::from(denominator) - 1) as u32)
            .collect();
        assert_same_as_brute_force(&table(rows, columns, denominator, &cells));
    }
}

#[test]
fn random_first_roundings_of_four_by_four() {
    let mut generator = Generator::new(33);
    for _ in 0..40 {
        let weight = generator.between(2, 9);
        let cells: Vec<u64> = (0..16).map(|_| generator.below(weight)).collect();
        let first = all_roundings(4, 4, weight, &cells).remove(0);
        assert_eq!(first_rounding(4, 4, weight, &cells), first, "{cells:?}");
    }
}
