//! The tables of literal cases that speak of the plan call.

use super::{length_of, planned, Planning};
use crate::draw::stated_array;
use compare::buffer::Buffer;
use compare::cases::{over_rows, require, Calls, Difference};
use compare::lent_tables::LentTable;
use tables::literal::examples::{self, Said};
use tables::literal::{check, plan};
use tables::papers::Example;
use tables::{Generator, GivenTable};

pub fn calls(calls: &mut Calls) -> Result<(), Difference> {
    let generator = &mut Generator::new(0);
    over_rows(&plan::calls(), |row| {
        let call = Planning {
            table: LentTable::of(generator, &row.given),
            plan: Buffer::holding(generator, &row.buffer),
        };
        let left = Planning {
            plan: call.plan.with(&row.result),
            ..call.clone()
        };
        calls.compare_left(&call, row.number, &left)
    })
}

/// A table's check is what planning answers, with room for its plan.
pub fn checks(calls: &mut Calls) -> Result<(), Difference> {
    over_rows(&check::cases(), |row| {
        checked(calls, &row.table, row.number)
    })
}

fn checked(calls: &mut Calls, table: &GivenTable, number: u32) -> Result<(), Difference> {
    let call = Planning::of(&mut Generator::new(0), table, 50_912);
    let found = calls.compare(&call)?.refusal();
    require(found == number, || {
        format!("before: {call:?}\nboth answer by {found}, the papers by {number}\n")
    })
}

/// The examples of the specification that carry proof.
pub fn examples(calls: &mut Calls) -> Result<(), Difference> {
    over_rows(&examples::rows(), |row| match &row.said {
        Said::Listing(arrays) => {
            let (table, arrays) = (row.table.clone(), arrays.clone());
            planned(calls, Example { table, arrays })
        }
        Said::Arrays(arrays) => drawn(calls, &row.table, arrays),
        Said::Number(number) => checked(calls, &row.table, *number),
    })
}

/// The arrays that the numbers of a table's plan belong to.
fn drawn(calls: &mut Calls, table: &GivenTable, arrays: &[Vec<u64>]) -> Result<(), Difference> {
    let call = Planning::of(&mut Generator::new(0), table, length_of(table));
    let plan = calls.compare(&call)?.after.plan;
    for (number, counts) in (0..).zip(arrays) {
        stated_array(calls, plan.lent(), number, counts)?;
    }
    Ok(())
}
