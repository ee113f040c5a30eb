//! Why an array has the weight that it has.
//!
//! The plan of three shelf zones by four kinds, an array a line: its weight, its counts
//! zone by zone, and the entry that bears no more of it. With one chance more, that entry
//! could no longer be made up for by the arrays that follow.

use lufodimi::{Plan, Refusal, Table};

fn main() -> Result<(), Refusal> {
    print!("{}", described(&standing()?)?);
    Ok(())
}

/// A zone a row: 45 is an expected count of 4.5 cartons.
fn standing() -> Result<Table, Refusal> {
    let zones = [[45, 23, 0, 12], [31, 26, 4, 19], [0, 14, 52, 14]];
    Table::new(3, 4, 10, zones.concat())
}

/// The plan of a table, with the reason beside each array.
fn described(table: &Table) -> Result<String, Refusal> {
    let mut text = String::new();
    for (number, array) in (1..).zip(Plan::of(table).arrays()) {
        text += &format!(
            "{} of {}: {}: {}\n",
            array.weight,
            table.denominator(),
            by_rows(&array.counts, table.columns()),
            table.reason(number)?
        );
    }
    Ok(text)
}

/// Counts with a comma after each row.
fn by_rows(counts: &[u16], columns: u32) -> String {
    let row = |counts: &[u16]| {
        let words: Vec<String> = counts.iter().map(u16::to_string).collect();
        words.join(" ")
    };
    let rows: Vec<String> = counts.chunks(columns as usize).map(row).collect();
    rows.join(", ")
}

#[cfg(test)]
mod tests {
    use super::*;

    #[test]
    fn the_example_runs() {
        assert_eq!(main(), Ok(()));
    }

    #[test]
    fn the_standing_table_is_described() {
        let text = standing().and_then(|standing| described(&standing));
        let expected = "\
            2 of 10: 4 2 0 2, 3 2 1 2, 0 2 5 1: the cell in row 1 and column 4, rounded up\n\
            2 of 10: 4 3 0 1, 3 2 1 2, 0 1 5 2: the cell in row 2 and column 2, rounded down\n\
            1 of 10: 4 3 0 1, 4 3 0 1, 0 1 5 2: the cell in row 1 and column 1, rounded down\n\
            1 of 10: 5 2 0 1, 3 3 0 2, 0 1 5 2: the cell in row 3 and column 4, rounded up\n\
            2 of 10: 5 2 0 1, 3 3 0 2, 0 1 6 1: the cell in row 3 and column 2, rounded down\n\
            2 of 10: 5 2 0 1, 3 3 0 2, 0 2 5 1: all entries are whole\n";
        assert_eq!(text.as_deref(), Ok(expected));
    }

    #[test]
    fn totals_are_reasons_too() {
        let table = Table::new(2, 2, 10, [3, 4, 5, 6]).expect("accepted");
        let expected = "2 of 10: 0 0, 0 1: the total of column 1, rounded down\n\
            1 of 10: 0 0, 1 1: the total of row 1, rounded down\n\
            4 of 10: 0 1, 1 0: the cell in row 1 and column 1, rounded down\n\
            3 of 10: 1 0, 0 1: all entries are whole\n";
        assert_eq!(described(&table).as_deref(), Ok(expected));
    }
}
