//! The table of literal cases that speaks of opening.

use super::stated_bytes;
use compare::cases::{over_rows, Calls, Difference};
use tables::literal::open;

pub fn plans(calls: &mut Calls) -> Result<(), Difference> {
    over_rows(&open::cases(), |row| {
        stated_bytes(calls, &row.bytes, row.number)
    })
}
