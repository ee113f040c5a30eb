//! The literal cases that speak of the walk.

use super::{Beginning, GoingOn, Known};
use compare::buffer::Buffer;
use compare::cases::{over_rows, Calls, Difference};
use tables::literal::walk;
use tables::Generator;

pub fn first_calls(calls: &mut Calls) -> Result<(), Difference> {
    let generator = &mut Generator::new(0);
    over_rows(&walk::first_calls(), |row| {
        let call = Beginning {
            counts: Buffer::holding(generator, &row.buffer),
            ..Beginning::of(generator, &row.given, 0, Known(None))
        };
        let left = Beginning {
            counts: call.counts.with(&row.result),
            ..call.clone()
        };
        calls.compare_left(&call, row.number, &left)
    })
}

pub fn next_calls(calls: &mut Calls) -> Result<(), Difference> {
    let generator = &mut Generator::new(0);
    over_rows(&walk::next_calls(), |row| {
        let call = GoingOn {
            counts: Buffer::holding(generator, &row.buffer),
            ..GoingOn::of(
                generator,
                &row.given.table,
                &row.given.array,
                0,
                Known(None),
            )
        };
        let left = GoingOn {
            counts: call.counts.with(&row.result),
            ..call.clone()
        };
        calls.compare_left(&call, row.number, &left)
    })
}
