//! The tables of literal cases: every row gives what is said of it.

mod campaign_calls;
mod plan_calls;
mod table_calls;

use std::fmt::Debug;
use tables::literal::numbered;

/// Goes over the rows of a table. The closure gives what is found of a row and what is
/// said of it; a row where they differ is named.
pub fn assert_rows<Row: Debug, Found: Debug + PartialEq>(
    rows: &[Row],
    found_and_said: impl Fn(&Row) -> (Found, Found),
) {
    for (number, row) in numbered(rows) {
        let (found, said) = found_and_said(row);
        assert_eq!(found, said, "row {number}: {row:?}");
    }
}
