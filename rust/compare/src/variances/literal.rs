//! The tables of literal cases that speak of variances.

use super::program::Run;
use super::Telling;
use compare::buffer::Buffer;
use compare::cases::{over_rows, Calls, Difference};
use tables::literal::variances;
use tables::Generator;

pub fn calls(calls: &mut Calls) -> Result<(), Difference> {
    let generator = &mut Generator::new(0);
    over_rows(&variances::calls(), |row| {
        let call = Telling {
            plan: Buffer::holding(generator, &row.given),
            numerators: Buffer::holding(generator, &row.buffer),
        };
        let left = Telling {
            numerators: call.numerators.with(&row.result),
            ..call.clone()
        };
        calls.compare_left(&call, row.number, &left)
    })
}

pub fn outputs(calls: &mut Calls) -> Result<(), Difference> {
    over_rows(&variances::outputs(), |row| {
        Run::on(&row.input).compare_printed(calls, row.prints)
    })
}
