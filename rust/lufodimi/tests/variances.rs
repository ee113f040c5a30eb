//! Variances and covariances of a plan's cells.

use lufodimi::{Covariances, Plan, Table, Variances};

/// The plan of a table that must be accepted.
fn plan(rows: u32, columns: u32, denominator: u32, cells: &[u32]) -> Plan {
    Plan::of(&Table::new(rows, columns, denominator, cells).expect("accepted"))
}

fn listing() -> Plan {
    plan(2, 2, 10, &[3, 4, 5, 6])
}

/// The three numerators, in the order in which they are printed.
fn numerators(plan: &Plan) -> [i64; 3] {
    let Variances {
        variance_sum,
        smallest_covariance,
        largest_covariance,
    } = plan.variances();
    [variance_sum, smallest_covariance, largest_covariance]
}

/// The covariance of two cells that are there.
fn covariance(covariances: &Covariances, a: usize, b: usize) -> i64 {
    covariances.of(a, b).expect("there are such cells")
}

#[test]
fn the_listing_by_hand() {
    let by_hand = [
        [21, -12, -15, 12],
        [-12, 24, 20, -24],
        [-15, 20, 25, -20],
        [12, -24, -20, 24],
    ];
    let plan = listing();
    let covariances = plan.covariances();
    for (a, row) in by_hand.iter().enumerate() {
        for (b, &number) in row.iter().enumerate() {
            assert_eq!(covariances.of(a, b), Some(number), "cells {a} and {b}");
        }
    }
    assert_eq!(numerators(&plan), [94, -24, 20]);
}

#[test]
fn one_cell_has_a_variance_and_no_covariance() {
    let plan = plan(1, 1, 3, &[2]);
    assert_eq!(numerators(&plan), [2, 0, 0]);
    assert_eq!(plan.covariances().of(0, 0), Some(2));
}

#[test]
fn the_largest_covariance_may_be_negative() {
    let plan = plan(1, 2, 10, &[3, 4]);
    assert_eq!(numerators(&plan), [45, -12, -12]);
}

#[test]
fn there_is_no_covariance_where_there_is_no_cell() {
    let plan = listing();
    let covariances = plan.covariances();
    assert_eq!(covariances.of(4, 0), None);
    assert_eq!(covariances.of(0, 4), None);
    assert_eq!(covariances.of(usize::MAX, usize::MAX), None);
}

/// A plan of somebody else: cells 1 1, 1 0 over 2, arrays 1 0, 0 0 and 0 1, 1 0.
#[rustfmt::skip]
const VARYING: [u8; 64] = [
    1, 0, 2, 2, 2, 0, 0, 0,
    2, 0, 0, 0, 32, 0, 0, 0,
    1, 0, 0, 0, 48, 0, 0, 0,
    1, 0, 0, 0, 56, 0, 0, 0,
    1, 0, 0, 0, 1, 0, 0, 0, 1, 0, 0, 0, 0, 0, 0, 0,
    1, 0, 0, 0, 0, 0, 0, 0,
    0, 0, 1, 0, 1, 0, 0, 0,
];

#[test]
fn a_foreign_plan() {
    let plan = Plan::open(VARYING).expect("it opens");
    assert_eq!(numerators(&plan), [3, -1, 1]);
    let covariances = plan.covariances();
    assert_eq!(covariances.of(0, 1), Some(-1));
    assert_eq!(covariances.of(1, 2), Some(1));
    assert_eq!(covariances.of(3, 0), Some(0));
}

/// f·(D − f), where f is the remainder of an entry by D.
fn by_remainder(entry: u32, denominator: u32) -> i64 {
    let (entry, denominator) = (i64::from(entry), i64::from(denominator));
    entry % denominator * (denominator - entry % denominator)
}

/// Variances are those of remainders, of a row by its total's; all three numerators are
/// those of the covariances pair by pair.
fn assert_agreeing(plan: &Plan) {
    let (columns, size) = (plan.columns() as usize, plan.cells().len());
    let denominator = plan.denominator();
    let covariances = &plan.covariances();
    let of_cells = plan
        .cells()
        .iter()
        .map(|&cell| by_remainder(cell, denominator));
    for (cell, variance) in of_cells.clone().enumerate() {
        assert_eq!(covariance(covariances, cell, cell), variance, "cell {cell}");
    }
    for (row, cells) in plan.cells().chunks(columns).enumerate() {
        let places = row * columns..(row + 1) * columns;
        let pairs = places
            .clone()
            .flat_map(|a| places.clone().map(move |b| (a, b)));
        let sum: i64 = pairs.map(|(a, b)| covariance(covariances, a, b)).sum();
        assert_eq!(
            sum,
            by_remainder(cells.iter().sum(), denominator),
            "row {row}"
        );
    }
    let different = (0..size).flat_map(|a| (0..a).map(move |b| covariance(covariances, a, b)));
    let smallest = different.clone().min().unwrap_or(0);
    let largest = different.max().unwrap_or(0);
    assert_eq!(numerators(plan), [of_cells.sum(), smallest, largest]);
}

#[test]
fn variances_and_covariances_agree() {
    assert_agreeing(&listing());
    assert_agreeing(&Plan::open(VARYING).expect("it opens"));
    assert_agreeing(&plan(2, 3, 1000, &[300_400, 70, 65_936, 1500, 260, 999]));
    assert_agreeing(&plan(1, 2, 65_535, &[65_502_232, 65_502_233]));
    let cells: Vec<u32> = (0..144).map(|place| place * 455 % 65_535).collect();
    assert_agreeing(&plan(12, 12, 65_535, &cells));
}
