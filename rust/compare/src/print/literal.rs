//! The tables of literal cases that speak of the printing program.

use super::{compare_text, Print};
use compare::cases::{over_rows, require, Calls, Difference};
use tables::literal::text::{parses, OUTPUTS, REFUSED};

pub fn outputs(calls: &mut Calls) -> Result<(), Difference> {
    over_rows(OUTPUTS, |row| {
        let call = Print {
            input: row.text.into(),
            output: Vec::new(),
        };
        let left = Print {
            output: row.prints.into(),
            ..call.clone()
        };
        calls.compare_left(&call, 0, &left)
    })
}

/// A text is refused exactly if no numbers are read from it.
pub fn texts(calls: &mut Calls) -> Result<(), Difference> {
    over_rows(&parses(), |row| {
        let print = compare_text(calls, &row.text)?;
        let refused = print.output == REFUSED.as_bytes();
        require(refused == row.numbers.is_none(), || {
            format!("both print {:?}\n", String::from_utf8_lossy(&print.output))
        })
    })
}
