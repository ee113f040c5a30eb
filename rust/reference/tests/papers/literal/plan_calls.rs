//! Stored plans: what they hold, which of them open, what they tell, draws and variances.

use super::assert_rows;
use crate::samples::stated_plan;
use reference::{encode, number_of, Refusal};
use tables::literal::parts::Buffers;
use tables::literal::{draw, open, parts, stored, variances};

#[test]
fn stored_plans_hold_what_is_said() {
    assert_rows(&stored::stored(), |row| {
        let plan = stated_plan(row.plan.clone());
        let found = (reference::open(row.bytes), encode(&plan));
        (found, (Ok(plan), row.bytes.to_vec()))
    });
}

#[test]
fn plans_open_or_not() {
    assert_rows(&open::cases(), |row| {
        let answer = reference::open(&row.bytes).map(drop);
        (number_of(answer), row.number)
    });
}

/// A call that tells a part of a plan, on the rows of its table.
fn assert_told(rows: &[parts::Telling], call: fn(&[u8], &mut [u32]) -> Result<(), Refusal>) {
    assert_rows(rows, |row| {
        let mut numbers = row.buffer.clone();
        let answer = call(&row.given, &mut numbers);
        (
            (number_of(answer), numbers),
            (row.number, row.result.clone()),
        )
    });
}

#[test]
fn sizes() {
    assert_told(&parts::sizes(), reference::sizes);
}

#[test]
fn cells() {
    assert_told(&parts::cells(), reference::cells);
}

#[test]
fn arrays() {
    assert_rows(&parts::arrays(), |row| {
        let Buffers {
            mut weight,
            mut counts,
        } = row.lent.clone();
        let answer = reference::array(&row.plan, row.array, &mut weight, &mut counts);
        (
            (number_of(answer), Buffers { weight, counts }),
            (row.number, row.left.clone()),
        )
    });
}

#[test]
fn draws() {
    assert_rows(&draw::calls(), |row| {
        let mut counts = row.buffer.clone();
        let answer = reference::draw(&row.given.plan, row.given.number, &mut counts);
        (
            (number_of(answer), counts),
            (row.number, row.result.clone()),
        )
    });
}

#[test]
fn calls_of_variances() {
    assert_rows(&variances::calls(), |row| {
        let mut numerators = row.buffer.clone();
        let answer = reference::variances(&row.given, &mut numerators);
        (
            (number_of(answer), numerators),
            (row.number, row.result.clone()),
        )
    });
}
