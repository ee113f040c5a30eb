//! All samples that controlled selection can draw from a small table.
//!
//! Jessen's problem of 1970, three by three: one unit a cell, and two of each row and of
//! each column are drawn. All six controlled roundings are printed side by side, with the
//! plan's weight of each. Of many plans that give every cell its chance, this one needs
//! three of the six.

use lufodimi::{Plan, Refusal, Table};

fn main() -> Result<(), Refusal> {
    print!("{}", described(&jessen()?)?);
    Ok(())
}

/// 8 is an expected count of 0.8.
fn jessen() -> Result<Table, Refusal> {
    let rows = [[8, 5, 7], [7, 8, 5], [5, 7, 8]];
    Table::new(3, 3, 10, rows.concat())
}

/// The arrays of a table side by side, in columns, and below each its weight.
fn described(table: &Table) -> Result<String, Refusal> {
    let arrays: Vec<Vec<u16>> = table.roundings()?.collect();
    let columns = table.columns() as usize;
    let mut lines = Vec::new();
    for row in 0..table.rows() as usize {
        let places = row * columns..(row + 1) * columns;
        lines.push(line(
            arrays.iter().map(|array| joined(&array[places.clone()])),
        ));
    }
    let weights = arrays.iter().map(|array| weight_of(table, array));
    lines.push(line(weights.map(|weight| weight.to_string())));
    Ok(lines.concat())
}

/// Words in columns, a line.
fn line(words: impl Iterator<Item = String>) -> String {
    let padded: Vec<String> = words.map(|word| format!("{word:>5}")).collect();
    padded.join("   ") + "\n"
}

fn joined(counts: &[u16]) -> String {
    let words: Vec<String> = counts.iter().map(u16::to_string).collect();
    words.join(" ")
}

/// How many draw numbers an array has in the table's plan, 0 if it is not in it.
fn weight_of(table: &Table, counts: &[u16]) -> u32 {
    let plan = Plan::of(table);
    let same = plan.arrays().filter(|array| array.counts == counts);
    same.map(|array| array.weight).sum()
}

#[cfg(test)]
mod tests {
    use super::*;

    #[test]
    fn the_example_runs() {
        assert_eq!(main(), Ok(()));
    }

    #[test]
    fn six_arrays_side_by_side() {
        let text = jessen().and_then(|jessen| described(&jessen));
        let expected = "\
            0 1 1   0 1 1   1 0 1   1 0 1   1 1 0   1 1 0\n\
            1 0 1   1 1 0   0 1 1   1 1 0   0 1 1   1 0 1\n\
            1 1 0   1 0 1   1 1 0   0 1 1   1 0 1   0 1 1\n\
            \x20   2       0       0       5       3       0\n";
        assert_eq!(text.as_deref(), Ok(expected));
    }

    #[test]
    fn a_larger_table_is_refused() {
        let large = Table::new(5, 1, 2, [1; 5]).expect("accepted");
        assert_eq!(described(&large), Err(Refusal::WalkSize));
    }
}
