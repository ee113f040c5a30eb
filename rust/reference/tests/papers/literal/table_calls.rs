//! Tables: their check, controlled roundings, the calls "rounding", "walk first", "walk
//! next", "plan", "reason" and "pool", the rounding of corrections, and the examples of 01.

use super::assert_rows;
use crate::samples::{accepted, planned_arrays, stored_plan};
use reference::{draw, is_controlled_rounding, is_signed_rounding, number_of};
use reference::{Refusal, Step, Table};
use tables::literal::examples::{self, Row, Said};
use tables::literal::pool::{self, Buffers, Pool};
use tables::literal::{check, corrections, plan, reason, round, walk};
use tables::GivenTable;

/// The number that a table's check gives.
fn checked(given: &GivenTable) -> u32 {
    let table = Table::accept(given.rows, given.columns, given.denominator, &given.cells);
    number_of(table.map(drop))
}

#[test]
fn tables_are_checked() {
    assert_rows(&check::cases(), |row| (checked(&row.table), row.number));
}

#[test]
fn candidates_round_or_not() {
    let cells = round::CELLS.map(u64::from);
    assert_rows(round::CANDIDATES, |row| {
        let rounds = is_controlled_rounding(2, 3, 10, &cells, row.counts);
        (rounds, row.rounds)
    });
}

#[test]
fn calls_of_round() {
    assert_rows(&round::calls(), |row| {
        let (given, mut counts) = (&row.given, row.buffer.clone());
        let answer = reference::round(
            given.rows,
            given.columns,
            given.denominator,
            &given.cells,
            &mut counts,
        );
        (
            (number_of(answer), counts),
            (row.number, row.result.clone()),
        )
    });
}

#[test]
fn candidates_round_corrections_or_not() {
    assert_rows(corrections::CANDIDATES, |row| {
        let rounds = is_signed_rounding(2, 3, 10, &corrections::SHEET, row.counts);
        (rounds, row.rounds)
    });
}

#[test]
fn calls_of_round_signed() {
    assert_rows(&corrections::calls(), |row| {
        let (given, mut counts) = (&row.given, row.buffer.clone());
        let answer = reference::round_signed(
            given.rows,
            given.columns,
            given.denominator,
            &given.cells,
            &mut counts,
        );
        (
            (number_of(answer), counts),
            (row.number, row.result.clone()),
        )
    });
}

#[test]
fn calls_of_walk_first() {
    assert_rows(&walk::first_calls(), |row| {
        let (given, mut counts) = (&row.given, row.buffer.clone());
        let answer = reference::walk_first(
            given.rows,
            given.columns,
            given.denominator,
            &given.cells,
            &mut counts,
        );
        (
            (number_of(answer), counts),
            (row.number, row.result.clone()),
        )
    });
}

#[test]
fn calls_of_walk_next() {
    assert_rows(&walk::next_calls(), |row| {
        let (given, mut counts) = (&row.given.table, row.buffer.clone());
        let answer = reference::walk_next(
            given.rows,
            given.columns,
            given.denominator,
            &given.cells,
            &row.given.array,
            &mut counts,
        );
        let number = answer.map_or_else(Refusal::number, Step::number);
        ((number, counts), (row.number, row.result.clone()))
    });
}

#[test]
fn calls_of_plan() {
    assert_rows(&plan::calls(), |row| {
        let (given, mut bytes) = (&row.given, row.buffer.clone());
        let answer = reference::plan(
            given.rows,
            given.columns,
            given.denominator,
            &given.cells,
            &mut bytes,
        );
        let number = answer.unwrap_or_else(Refusal::number);
        ((number, bytes), (row.number, row.result.clone()))
    });
}

#[test]
fn calls_of_reason() {
    assert_rows(&reason::calls(), |row| {
        let (given, mut reply) = (&row.given.table, row.buffer.clone());
        let answer = reference::reason(
            given.rows,
            given.columns,
            given.denominator,
            &given.cells,
            row.given.array,
            &mut reply,
        );
        ((number_of(answer), reply), (row.number, row.result.clone()))
    });
}

/// The number that pooling returns, and the buffers as it leaves them.
fn pooled(row: &Pool) -> (u32, Buffers) {
    let (given, mut left) = (&row.given, row.lent.clone());
    let answer = reference::pool(
        given.rows,
        given.columns,
        given.first.denominator,
        &given.first.cells,
        given.second.denominator,
        &given.second.cells,
        &mut left.denominator,
        &mut left.cells,
    );
    (number_of(answer), left)
}

#[test]
fn calls_of_pool() {
    assert_rows(&pool::calls(), |row| {
        (pooled(row), (row.number, row.left.clone()))
    });
}

#[test]
fn a_recall_list_is_pooled() {
    assert_rows(&[pool::recall()], |row| {
        (pooled(row), (row.number, row.left.clone()))
    });
}

/// The arrays that the numbers from 0 to D - 1 belong to.
fn drawn(table: &Table) -> Vec<Vec<u64>> {
    let plan = stored_plan(table);
    let array = |number: u64| {
        let mut counts = [8; 4];
        draw(&plan, number as u32, &mut counts).expect("accepted");
        counts.map(u64::from).to_vec()
    };
    (0..table.denominator).map(array).collect()
}

/// What an example says, by the reference.
fn computed(row: &Row) -> Said {
    match row.said {
        Said::Listing(_) => Said::Listing(planned_arrays(&accepted(&row.table))),
        Said::Arrays(_) => Said::Arrays(drawn(&accepted(&row.table))),
        Said::Number(_) => Said::Number(checked(&row.table)),
    }
}

#[test]
fn examples_that_carry_proof() {
    assert_rows(&examples::rows(), |row| (computed(row), row.said.clone()));
}
