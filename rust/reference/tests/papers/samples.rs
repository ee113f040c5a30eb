//! Tables and plans that several tests use.

use reference::{encode, plan_of, write_reason, Plan, Table};
use tables::papers::{self, Example, WeightedArrays};
use tables::GivenTable;

/// A table that must be accepted.
pub fn table(rows: u32, columns: u32, denominator: u32, cells: &[u32]) -> Table {
    Table::accept(rows, columns, denominator, cells).expect("the table is accepted")
}

/// The same for a table as it is given.
pub fn accepted(given: &GivenTable) -> Table {
    table(given.rows, given.columns, given.denominator, &given.cells)
}

/// A plan as the papers state it.
pub fn stated_plan(example: Example) -> Plan {
    Plan::new(accepted(&example.table), example.arrays)
}

/// The specification's listing.
pub fn listed_plan() -> Plan {
    stated_plan(papers::listing())
}

/// The stored plan of a table.
pub fn stored_plan(table: &Table) -> Vec<u8> {
    encode(&plan_of(table))
}

/// The weights and counts of a table's plan.
pub fn planned_arrays(table: &Table) -> WeightedArrays {
    plan_of(table)
        .arrays
        .into_iter()
        .map(|array| (array.weight, array.counts))
        .collect()
}

/// The replies for all arrays of a table's plan.
pub fn reasons(table: &Table) -> Vec<[u32; 4]> {
    let plan = plan_of(table);
    let reply = |number: usize| {
        let mut reply = [0; 4];
        write_reason(&plan, number as u32, &mut reply).expect("the plan has the array");
        reply
    };
    (1..=plan.arrays.len()).map(reply).collect()
}
