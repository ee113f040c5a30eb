//! The tables of literal cases that speak of the rounding call.

use super::Round;
use compare::buffer::Buffer;
use compare::cases::{over_rows, Calls, Difference};
use compare::lent_tables::LentTable;
use tables::literal::{check, round};
use tables::Generator;

pub fn calls(calls: &mut Calls) -> Result<(), Difference> {
    let generator = &mut Generator::new(0);
    over_rows(&round::calls(), |row| {
        let call = Round {
            table: LentTable::of(generator, &row.given),
            counts: Buffer::holding(generator, &row.buffer),
        };
        let left = Round {
            counts: call.counts.with(&row.result),
            ..call.clone()
        };
        calls.compare_left(&call, row.number, &left)
    })
}

/// A table's check is what rounding answers, with room for every cell.
pub fn checks(calls: &mut Calls) -> Result<(), Difference> {
    let generator = &mut Generator::new(0);
    over_rows(&check::cases(), |row| {
        let call = Round::of(generator, &row.table, row.table.cells.len());
        calls.compare_stated(&call, row.number).map(drop)
    })
}
