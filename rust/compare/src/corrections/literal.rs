//! The literal cases that speak of the rounding of corrections.

use super::Correcting;
use compare::buffer::Buffer;
use compare::cases::{over_rows, Calls, Difference};
use compare::lent_tables::LentTable;
use tables::literal::corrections;
use tables::Generator;

pub fn calls(calls: &mut Calls) -> Result<(), Difference> {
    let generator = &mut Generator::new(0);
    over_rows(&corrections::calls(), |row| {
        let call = Correcting {
            table: LentTable::of(generator, &row.given),
            counts: Buffer::holding(generator, &row.buffer),
        };
        let left = Correcting {
            counts: call.counts.with(&row.result),
            ..call.clone()
        };
        calls.compare_left(&call, row.number, &left)
    })
}
