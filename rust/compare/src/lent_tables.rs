//! Tables as they are lent to a call, and such as are turned back.

use crate::buffer::{Buffer, Item};
use tables::{Generator, GivenCorrections, GivenTable};

/// A table as it is lent to a call.
#[derive(Clone, Debug, PartialEq)]
pub struct LentTable<Cell = u32> {
    pub rows: u32,
    pub columns: u32,
    pub denominator: u32,
    pub cells: Buffer<Cell>,
}

impl<Cell: Item> LentTable<Cell> {
    pub fn of(generator: &mut Generator, table: &GivenTable<Cell>) -> Self {
        LentTable {
            rows: table.rows,
            columns: table.columns,
            denominator: table.denominator,
            cells: Buffer::holding(generator, &table.cells),
        }
    }
}

/// The table with every combination of changes, one or none to each of size,
/// denominator, number of cells and cells. So each refusal meets each other one.
pub fn turned_back(generator: &mut Generator, accepted: &GivenTable) -> Vec<GivenTable> {
    let too_large = |denominator: u32| {
        let above = denominator.saturating_mul(1000).saturating_add(1);
        vec![above, u32::MAX]
    };
    changed_tables(generator, accepted, too_large)
}

/// The same for corrections, with cells beyond either bound.
pub fn corrections_turned_back(
    generator: &mut Generator,
    accepted: &GivenCorrections,
) -> Vec<GivenCorrections> {
    let beyond = |denominator: u32| {
        let bound = i32::try_from(i64::from(denominator) * 1000).unwrap_or(i32::MAX - 1);
        vec![-bound - 1, bound + 1, i32::MIN, i32::MAX]
    };
    changed_tables(generator, accepted, beyond)
}

/// The accepted table with a cell below 0 put at one of its places, by the bits that it has
/// in corrections.
pub fn with_negative_cell(generator: &mut Generator, accepted: &GivenTable) -> GivenTable {
    let bound = 1000 * accepted.denominator as i32;
    let within = -(generator.between(1, bound as u64) as i32);
    let cell = generator.pick(&[-1, within, -bound, -bound - 1, i32::MIN]);
    let mut table = accepted.clone();
    table.cells[generator.place(accepted.cells.len())] = cell as u32;
    table
}

/// The combinations of changes, with these cells beyond the bounds for a denominator.
fn changed_tables<Cell: Copy + Default>(
    generator: &mut Generator,
    accepted: &GivenTable<Cell>,
    beyond: impl Fn(u32) -> Vec<Cell>,
) -> Vec<GivenTable<Cell>> {
    let mut tables = Vec::new();
    for (rows, columns) in sizes_around(accepted.rows, accepted.columns) {
        for denominator in [accepted.denominator, 0, 65_536, u32::MAX] {
            let changed = GivenTable {
                rows,
                columns,
                denominator,
                cells: cells_for(rows, columns, &accepted.cells),
            };
            tables.extend(with_changed_cells(
                generator,
                &changed,
                &beyond(denominator),
            ));
        }
    }
    tables
}

/// A size as it is, and with rows, columns or both out of bounds.
fn sizes_around(rows: u32, columns: u32) -> [(u32, u32); 9] {
    [
        (rows, columns),
        (0, columns),
        (13, columns),
        (u32::MAX, columns),
        (rows, 0),
        (rows, 13),
        (rows, u32::MAX),
        (0, 13),
        (65_536, 65_536),
    ]
}

/// As many cells as rows and columns ask for, or as there are if that is too many.
fn cells_for<Cell: Copy>(rows: u32, columns: u32, cells: &[Cell]) -> Vec<Cell> {
    let asked = u64::from(rows) * u64::from(columns);
    let count = if asked <= 13 * 13 {
        asked as usize
    } else {
        cells.len()
    };
    cells.iter().copied().cycle().take(count).collect()
}

/// The table as it is, and with one cell less, one more or none, each without and
/// with each of the cells beyond the bounds.
fn with_changed_cells<Cell: Copy + Default>(
    generator: &mut Generator,
    table: &GivenTable<Cell>,
    beyond: &[Cell],
) -> Vec<GivenTable<Cell>> {
    let count = table.cells.len();
    let mut tables = Vec::new();
    for count in [count, count.saturating_sub(1), count + 1, 0] {
        let mut cells = table.cells.clone();
        cells.resize(count, Cell::default());
        tables.push(GivenTable {
            cells: cells.clone(),
            ..*table
        });
        for &cell in beyond {
            let mut changed = cells.clone();
            if count > 0 {
                changed[generator.place(count)] = cell;
            }
            tables.push(GivenTable {
                cells: changed,
                ..*table
            });
        }
    }
    tables
}
