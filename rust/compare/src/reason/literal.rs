//! The literal cases that speak of the reason call.

use super::Asking;
use compare::buffer::Buffer;
use compare::cases::{over_rows, Calls, Difference};
use tables::literal::reason;
use tables::Generator;

pub fn calls(calls: &mut Calls) -> Result<(), Difference> {
    let generator = &mut Generator::new(0);
    over_rows(&reason::calls(), |row| {
        let call = Asking {
            reply: Buffer::holding(generator, &row.buffer),
            ..Asking::of(generator, &row.given.table, row.given.array, 0)
        };
        let left = Asking {
            reply: call.reply.with(&row.result),
            ..call.clone()
        };
        calls.compare_left(&call, row.number, &left)
    })
}
