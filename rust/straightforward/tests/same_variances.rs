//! The straightforward program and the reference give the same variances and covariances.

use reference::{encode, Plan, Table};
use tables::literal::variances::calls;
use tables::{evenly_spread, random_table, Generator, GivenTable};

/// The stored plan of an accepted table.
fn stored_plan(given: &GivenTable) -> Vec<u8> {
    let (rows, columns, denominator) = (given.rows, given.columns, given.denominator);
    let table = Table::accept(rows, columns, denominator, &given.cells).expect("accepted");
    let arrays = straightforward::plan(rows, columns, denominator, &given.cells);
    encode(&Plan::new(table, arrays))
}

fn assert_same_variances(given: &GivenTable) {
    let plan = stored_plan(given);
    let mut expected = [0; 3];
    assert_eq!(reference::variances(&plan, &mut expected), Ok(()));
    assert_eq!(straightforward::variances(&plan), expected, "{given:?}");
}

#[test]
fn literal_plans() {
    for row in calls().iter().filter(|row| row.number == 0) {
        assert_eq!(straightforward::variances(&row.given), row.result[..3]);
    }
}

#[test]
fn random_tables_of_up_to_five_by_five() {
    let mut generator = Generator::new(31);
    for _ in 0..500 {
        assert_same_variances(&random_table(&mut generator, 5));
    }
}

#[test]
fn random_tables_of_all_sizes() {
    let mut generator = Generator::new(32);
    for _ in 0..50 {
        assert_same_variances(&random_table(&mut generator, 12));
    }
}

#[test]
fn a_table_of_the_benchmark() {
    let mut generator = Generator::new(33);
    assert_same_variances(&evenly_spread(&mut generator, 12, 12, 65_535));
}
