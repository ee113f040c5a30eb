//! Random corrections: accepted tables whose cells may be below 0.

use super::{random_denominator, random_table_over, LARGEST_COUNT};
use crate::{Generator, GivenCorrections, GivenTable};

/// A way of making corrections of these rows and columns over this denominator.
pub type Way = fn(&mut Generator, u32, u32, u32) -> GivenCorrections;

/// All ways.
pub const WAYS: [Way; 6] = [
    mixed,
    negative,
    less_whole_counts,
    nearly_whole,
    near_bounds,
    moved,
];

/// Corrections of 1 to `largest` rows and 1 to `largest` columns.
pub fn random(generator: &mut Generator, largest: u32) -> GivenCorrections {
    let rows = generator.between(1, u64::from(largest)) as u32;
    let columns = generator.between(1, u64::from(largest)) as u32;
    random_of(generator, rows, columns)
}

/// Corrections of this size, made in one of all ways.
pub fn random_of(generator: &mut Generator, rows: u32, columns: u32) -> GivenCorrections {
    let way = generator.pick(&WAYS);
    let denominator = random_denominator(generator);
    way(generator, rows, columns, denominator)
}

/// A random table with a random sign for each cell.
pub fn mixed(
    generator: &mut Generator,
    rows: u32,
    columns: u32,
    denominator: u32,
) -> GivenCorrections {
    let table = random_table_over(generator, rows, columns, denominator);
    table.map(|cell| cell as i32 * generator.pick(&[-1, 1]))
}

/// A random table with every sign turned.
pub fn negative(
    generator: &mut Generator,
    rows: u32,
    columns: u32,
    denominator: u32,
) -> GivenCorrections {
    random_table_over(generator, rows, columns, denominator).map(|cell| -(cell as i32))
}

/// A random table with a whole count taken off each cell, so that just the same entries
/// are whole.
pub fn less_whole_counts(
    generator: &mut Generator,
    rows: u32,
    columns: u32,
    denominator: u32,
) -> GivenCorrections {
    let table = random_table_over(generator, rows, columns, denominator);
    let most = generator.pick(&[1, 4, LARGEST_COUNT]);
    table.map(|cell| cell as i32 - denominator as i32 * generator.between(0, most) as i32)
}

/// Cells that are multiples of the denominator on both sides of 0, or beside one.
pub fn nearly_whole(
    generator: &mut Generator,
    rows: u32,
    columns: u32,
    denominator: u32,
) -> GivenCorrections {
    let one = denominator as i32;
    GivenTable::uniform(rows, columns, denominator, -2 * one)
        .map(|cell| cell + one * generator.below(5) as i32 + generator.pick(&[-1, 0, 1]))
}

/// Cells at the two bounds, or up to a count within them.
pub fn near_bounds(
    generator: &mut Generator,
    rows: u32,
    columns: u32,
    denominator: u32,
) -> GivenCorrections {
    let one = u64::from(denominator);
    GivenTable::uniform(rows, columns, denominator, LARGEST_COUNT * one).map(|bound| {
        let within = [0, generator.below(2), generator.below(one + 1)];
        (bound - generator.pick(&within)) as i32 * generator.pick(&[-1, 1])
    })
}

/// What is taken off one cell of a row is added to another, so that every row total is 0,
/// as where stock moves from one place to another.
pub fn moved(
    generator: &mut Generator,
    rows: u32,
    columns: u32,
    denominator: u32,
) -> GivenCorrections {
    let mut table = GivenTable::uniform(rows, columns, denominator, 0);
    for row in table.cells.chunks_mut(columns as usize) {
        for _ in 0..columns {
            let amount = generator.below(2 * u64::from(denominator)) as i32;
            row[generator.place(columns as usize)] -= amount;
            row[generator.place(columns as usize)] += amount;
        }
    }
    table
}

#[cfg(test)]
mod tests {
    use super::*;

    #[test]
    fn every_way_keeps_the_bounds() {
        let mut generator = Generator::new(5);
        for way in WAYS {
            for _ in 0..1000 {
                let [rows, columns] = [(); 2].map(|()| generator.between(1, 12) as u32);
                let denominator = random_denominator(&mut generator);
                let table = way(&mut generator, rows, columns, denominator);
                let bound = 1000 * denominator as i32;
                let sizes = (table.rows, table.columns, table.denominator);
                assert_eq!(sizes, (rows, columns, denominator));
                assert_eq!(table.cells.len() as u32, rows * columns);
                assert!(table.cells.iter().all(|cell| cell.abs() <= bound));
            }
        }
    }

    #[test]
    fn random_corrections_reach_the_bounds() {
        let mut generator = Generator::new(6);
        let mut reached = [false; 4];
        for _ in 0..5000 {
            let table = random(&mut generator, 12);
            let bound = 1000 * table.denominator as i32;
            reached[0] |= table.cells.contains(&-bound);
            reached[1] |= table.cells.contains(&bound);
            reached[2] |= table.cells.iter().all(|&cell| cell < 0);
            reached[3] |= table.cells.len() == 144;
        }
        assert_eq!(reached, [true; 4]);
    }

    #[test]
    fn what_is_moved_leaves_every_row_total_at_0() {
        let mut generator = Generator::new(7);
        for _ in 0..200 {
            let table = moved(&mut generator, 5, 3, 20);
            let mut rows = table.cells.chunks(3);
            assert!(rows.all(|row| row.iter().sum::<i32>() == 0));
        }
    }
}
