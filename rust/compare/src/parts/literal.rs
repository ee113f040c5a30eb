//! The tables of literal cases that speak of a plan's sizes, cells and arrays.

use super::array::Array;
use super::{Part, Telling};
use compare::buffer::Buffer;
use compare::cases::{over_rows, Calls, Difference};
use tables::literal::parts;
use tables::Generator;

pub fn sizes(calls: &mut Calls) -> Result<(), Difference> {
    told(calls, Part::Sizes, &parts::sizes())
}

pub fn cells(calls: &mut Calls) -> Result<(), Difference> {
    told(calls, Part::Cells, &parts::cells())
}

fn told(calls: &mut Calls, part: Part, rows: &[parts::Telling]) -> Result<(), Difference> {
    let generator = &mut Generator::new(0);
    over_rows(rows, |row| {
        let call = Telling {
            part,
            plan: Buffer::holding(generator, &row.given),
            numbers: Buffer::holding(generator, &row.buffer),
        };
        let left = Telling {
            numbers: call.numbers.with(&row.result),
            ..call.clone()
        };
        calls.compare_left(&call, row.number, &left)
    })
}

pub fn arrays(calls: &mut Calls) -> Result<(), Difference> {
    let generator = &mut Generator::new(0);
    over_rows(&parts::arrays(), |row| {
        let call = Array {
            plan: Buffer::holding(generator, &row.plan),
            number: row.array,
            weight: Buffer::holding(generator, &row.lent.weight),
            counts: Buffer::holding(generator, &row.lent.counts),
        };
        let left = Array {
            weight: call.weight.with(&row.left.weight),
            counts: call.counts.with(&row.left.counts),
            ..call.clone()
        };
        calls.compare_left(&call, row.number, &left)
    })
}
