//! The straightforward program and the reference give the same plans.

use reference::{plan_of, Table};
use tables::{evenly_spread, random_table, Generator, GivenTable};

fn assert_same_plan(given: &GivenTable) {
    let (rows, columns, denominator) = (given.rows, given.columns, given.denominator);
    let table = Table::accept(rows, columns, denominator, &given.cells).expect("accepted");
    let expected: Vec<(u64, Vec<u64>)> = plan_of(&table)
        .arrays
        .into_iter()
        .map(|array| (array.weight, array.counts))
        .collect();
    let found = straightforward::plan(rows, columns, denominator, &given.cells);
    assert_eq!(found, expected, "{given:?}");
}

#[test]
fn random_tables_of_up_to_five_by_five() {
    let mut generator = Generator::new(21);
    for _ in 0..2000 {
        assert_same_plan(&random_table(&mut generator, 5));
    }
}

#[test]
fn random_tables_of_all_sizes() {
    let mut generator = Generator::new(22);
    for _ in 0..100 {
        assert_same_plan(&random_table(&mut generator, 12));
    }
}

#[test]
fn a_table_of_the_benchmark() {
    let mut generator = Generator::new(23);
    assert_same_plan(&evenly_spread(&mut generator, 12, 12, 65535));
}
