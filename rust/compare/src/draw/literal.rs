//! The tables of literal cases that speak of the draw.

use super::{stated_array, Draw};
use compare::buffer::Buffer;
use compare::cases::{over_rows, require, Calls, Difference};
use tables::literal::{draw, stored};
use tables::Generator;

pub fn calls(calls: &mut Calls) -> Result<(), Difference> {
    let generator = &mut Generator::new(0);
    over_rows(&draw::calls(), |row| {
        let call = Draw {
            plan: Buffer::holding(generator, &row.given.plan),
            number: row.given.number,
            counts: Buffer::holding(generator, &row.buffer),
        };
        let left = Draw {
            counts: call.counts.with(&row.result),
            ..call.clone()
        };
        calls.compare_left(&call, row.number, &left)
    })
}

/// What a stored plan holds is what its numbers draw: each array as often in a row as
/// its weight says.
pub fn stored_plans(calls: &mut Calls) -> Result<(), Difference> {
    over_rows(&stored::stored(), |row| {
        let mut numbers = 0..row.plan.table.denominator;
        for (weight, counts) in &row.plan.arrays {
            for number in numbers.by_ref().take(*weight as usize) {
                stated_array(calls, row.bytes, number, counts)?;
            }
        }
        require(numbers.is_empty(), || {
            format!("the numbers {numbers:?} belong to no array\n")
        })
    })
}
