//! The literal cases that speak of the pool call.

use super::{plan_keeps_both, Pooling};
use compare::cases::{over_rows, Calls, Difference};
use tables::literal::pool::{self, Pool};
use tables::Generator;

pub fn calls(calls: &mut Calls) -> Result<(), Difference> {
    let generator = &mut Generator::new(0);
    over_rows(&pool::calls(), |row| {
        compare_row(generator, calls, row).map(drop)
    })
}

/// A recall list pooled with the standing table, and the plan of both.
pub fn recall(calls: &mut Calls) -> Result<(), Difference> {
    let left = compare_row(&mut Generator::new(0), calls, &pool::recall())?;
    plan_keeps_both(&left)
}

/// A row with what both leave, as it says.
fn compare_row(
    generator: &mut Generator,
    calls: &mut Calls,
    row: &Pool,
) -> Result<Pooling, Difference> {
    let room = [row.lent.denominator.len(), row.lent.cells.len()];
    let any = Pooling::of(generator, &row.given, room);
    let call = Pooling {
        denominator: any.denominator.with(&row.lent.denominator),
        cells: any.cells.with(&row.lent.cells),
        ..any
    };
    let left = Pooling {
        denominator: call.denominator.with(&row.left.denominator),
        cells: call.cells.with(&row.left.cells),
        ..call.clone()
    };
    calls.compare_left(&call, row.number, &left)?;
    Ok(left)
}
