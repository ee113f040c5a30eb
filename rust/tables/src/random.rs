pub mod corrections;

use crate::{Generator, GivenTable};

/// Denominators that are small, extreme, or near a power of two.
const DENOMINATORS: [u32; 22] = [
    1, 2, 3, 4, 5, 7, 8, 10, 12, 16, 20, 60, 100, 255, 256, 997, 1000, 1024, 32768, 65521, 65534,
    65535,
];

/// The largest expected count of a cell.
const LARGEST_COUNT: u64 = 1000;

/// An accepted table of 1 to `largest` rows and 1 to `largest` columns.
pub fn random_table(generator: &mut Generator, largest: u32) -> GivenTable {
    let rows = generator.between(1, u64::from(largest)) as u32;
    let columns = generator.between(1, u64::from(largest)) as u32;
    random_table_of(generator, rows, columns)
}

/// An accepted table of this size.
pub fn random_table_of(generator: &mut Generator, rows: u32, columns: u32) -> GivenTable {
    let denominator = random_denominator(generator);
    random_table_over(generator, rows, columns, denominator)
}

/// An accepted table of this size over this denominator.
pub fn random_table_over(
    generator: &mut Generator,
    rows: u32,
    columns: u32,
    denominator: u32,
) -> GivenTable {
    let cells = random_cells(generator, rows, columns, denominator);
    GivenTable {
        rows,
        columns,
        denominator,
        cells,
    }
}

/// A table whose cells are spread evenly over 0 to `denominator` - 1.
pub fn evenly_spread(
    generator: &mut Generator,
    rows: u32,
    columns: u32,
    denominator: u32,
) -> GivenTable {
    let cells = (0..rows * columns)
        .map(|_| generator.below(u64::from(denominator)) as u32)
        .collect();
    GivenTable {
        rows,
        columns,
        denominator,
        cells,
    }
}

/// An accepted denominator.
pub fn random_denominator(generator: &mut Generator) -> u32 {
    match generator.below(4) {
        0 => generator.between(1, 65535) as u32,
        1 => generator.between(1, 30) as u32,
        _ => generator.pick(&DENOMINATORS),
    }
}

/// One way of filling cells for the whole table, or a way of its own for each cell.
fn random_cells(generator: &mut Generator, rows: u32, columns: u32, denominator: u32) -> Vec<u32> {
    let count = (rows * columns) as usize;
    match generator.below(12) {
        0 => whole_totals(generator, rows, columns, denominator),
        1 => (0..count)
            .map(|_| mixed_cell(generator, denominator))
            .collect(),
        way => (0..count)
            .map(|_| random_cell(generator, way % WAYS, denominator))
            .collect(),
    }
}

/// How many ways `random_cell` knows.
const WAYS: u64 = 7;

fn mixed_cell(generator: &mut Generator, denominator: u32) -> u32 {
    let way = generator.below(WAYS);
    random_cell(generator, way, denominator)
}

fn random_cell(generator: &mut Generator, way: u64, denominator: u32) -> u32 {
    let one = u64::from(denominator);
    let cell = match way {
        0 => generator.below(one),
        1 => generator.between(0, 3 * one),
        2 => generator.between(0, LARGEST_COUNT * one),
        3 => one * generator.between(0, 3),
        4 => nearly_whole(generator, one),
        5 if generator.once_in(3) => generator.below(one),
        5 => 0,
        _ => LARGEST_COUNT * one - generator.below(2),
    };
    cell as u32
}

/// A multiple of `one`, or a number beside it.
fn nearly_whole(generator: &mut Generator, one: u64) -> u64 {
    (one * generator.between(0, 4) + generator.between(0, 2)).saturating_sub(1)
}

/// Cells whose row and column totals are all whole: a weighted sum of arrays that
/// place a single unit in each row and share their column totals.
fn whole_totals(generator: &mut Generator, rows: u32, columns: u32, denominator: u32) -> Vec<u32> {
    let (rows, columns) = (rows as usize, columns as usize);
    let mut cells = vec![0; rows * columns];
    let mut order: Vec<usize> = (0..rows).collect();
    let mut left = u64::from(denominator);
    while left > 0 {
        let weight = generator.between(1, left);
        generator.shuffle(&mut order);
        for (row, place) in order.iter().enumerate() {
            cells[row * columns + place % columns] += weight as u32;
        }
        left -= weight;
    }
    cells
}

#[cfg(test)]
mod tests {
    use super::*;

    #[test]
    fn random_tables_keep_the_bounds_and_reach_them() {
        let mut generator = Generator::new(3);
        let (mut largest_size, mut largest_cell, mut zero) = (0, false, false);
        for _ in 0..5000 {
            let table = random_table(&mut generator, 12);
            let limit = 1000 * table.denominator;
            assert!((1..=12).contains(&table.rows) && (1..=12).contains(&table.columns));
            assert!((1..=65535).contains(&table.denominator));
            assert_eq!(table.cells.len() as u32, table.rows * table.columns);
            assert!(table.cells.iter().all(|&cell| cell <= limit));
            largest_size = largest_size.max(table.cells.len());
            largest_cell |= table.cells.contains(&limit);
            zero |= table.cells.contains(&0);
        }
        assert!(largest_size == 144 && largest_cell && zero);
    }

    #[test]
    fn whole_totals_are_whole() {
        let mut generator = Generator::new(4);
        for _ in 0..200 {
            let cells = whole_totals(&mut generator, 5, 3, 20);
            assert!(cells.chunks(3).all(|row| row.iter().sum::<u32>() == 20));
            let column_total = |column| cells.iter().skip(column).step_by(3).sum::<u32>();
            assert!((0..3).all(|column| column_total(column) % 20 == 0));
        }
    }
}
