use reference::{encode, Plan, Table};
use tables::{evenly_spread, Generator, GivenTable};

const SEED: u64 = 12;
pub const ROWS: u32 = 12;
pub const COLUMNS: u32 = 12;
pub const DENOMINATOR: u32 = 65_535;

/// The cells of a table, and so the counts of an array.
pub const SIZE: usize = 144;

/// The tables that are planned, the same in every run.
pub fn hundred_tables() -> Vec<GivenTable> {
    let mut generator = Generator::new(SEED);
    (0..100)
        .map(|_| evenly_spread(&mut generator, ROWS, COLUMNS, DENOMINATOR))
        .collect()
}

/// The plan of a table with these weights and counts, in form 1.
pub fn stored_plan(given: &GivenTable, arrays: Vec<(u64, Vec<u64>)>) -> Vec<u8> {
    let table = Table::accept(ROWS, COLUMNS, DENOMINATOR, &given.cells);
    encode(&Plan::new(table.expect("the table is accepted"), arrays))
}

/// The stored plans of the tables, from the straightforward program.
pub fn stored_plans(tables: &[GivenTable]) -> Vec<Vec<u8>> {
    let plan = |table: &GivenTable| {
        let arrays = straightforward::plan(ROWS, COLUMNS, DENOMINATOR, &table.cells);
        stored_plan(table, arrays)
    };
    tables.iter().map(plan).collect()
}
