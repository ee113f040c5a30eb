//! Which entry set the weight of an array (02, F-6). The call's refusals are those of a
//! table, then that of an array number, then that of a short buffer.

use crate::parts::write_numbers;
use crate::plan::Remaining;
use crate::{entries, plan_of, Plan, Refusal, Table};

/// The name of an entry, with row and column counted from 1.
#[derive(Clone, Copy, Debug, PartialEq, Eq)]
enum Entry {
    Cell { row: usize, column: usize },
    RowTotal { row: usize },
    ColumnTotal { column: usize },
    GrandTotal,
}

/// How the entry was rounded, or that all entries of what remained were whole.
#[derive(Clone, Copy)]
enum Rounded {
    AllWhole = 0,
    Down = 1,
    Up = 2,
}

/// The first entry whose limit is the weight.
struct Reason {
    entry: Entry,
    rounded: Rounded,
}

impl Reason {
    /// Kind, row, column and direction, 0 where the kind has no row or no column.
    fn numbers(self) -> [u64; 4] {
        let (kind, row, column) = match self.entry {
            Entry::Cell { row, column } => (1, row, column),
            Entry::RowTotal { row } => (2, row, 0),
            Entry::ColumnTotal { column } => (3, 0, column),
            Entry::GrandTotal => (4, 0, 0),
        };
        [kind, row as u64, column as u64, self.rounded as u64]
    }
}

/// The reason call: plans the table, and writes kind, row, column and direction of the
/// entry that set the weight of the array with this number.
pub fn reason(
    rows: u32,
    columns: u32,
    denominator: u32,
    cells: &[u32],
    array: u32,
    reply: &mut [u32],
) -> Result<(), Refusal> {
    let table = Table::accept(rows, columns, denominator, cells)?;
    write_reason(&plan_of(&table), array, reply)
}

/// The same for a table whose plan is known.
pub fn write_reason(plan: &Plan, array: u32, reply: &mut [u32]) -> Result<(), Refusal> {
    write_numbers(&reason_of(plan, array)?.numbers(), reply)
}

/// Which entry set the weight of an array, counted from 1, of a table's plan.
fn reason_of(plan: &Plan, number: u32) -> Result<Reason, Refusal> {
    let array = plan.array(number)?;
    let mut remaining = Remaining::of(&plan.table);
    for before in &plan.arrays[..number as usize - 1] {
        remaining.lose(before);
    }
    let place = remaining
        .limits(&array.counts)
        .iter()
        .position(|&limit| limit == array.weight)
        .expect("the weight is the limit of an entry");
    let (rows, columns) = (plan.table.rows, plan.table.columns);
    let count = entries(rows, columns, &array.counts)[place];
    Ok(Reason {
        entry: names(rows, columns)[place],
        rounded: rounded(&remaining, place, count),
    })
}

/// How the entry at a place was rounded to its count.
fn rounded(remaining: &Remaining, place: usize, count: u64) -> Rounded {
    let (all, weight) = (remaining.entries(), remaining.weight);
    if all.iter().all(|entry| entry % weight == 0) {
        Rounded::AllWhole
    } else if count == all[place] / weight {
        Rounded::Down
    } else {
        Rounded::Up
    }
}

/// The names of all entries, in their order.
fn names(rows: usize, columns: usize) -> Vec<Entry> {
    let mut all = Vec::new();
    for row in 1..=rows {
        all.extend((1..=columns).map(|column| Entry::Cell { row, column }));
    }
    all.extend((1..=rows).map(|row| Entry::RowTotal { row }));
    all.extend((1..=columns).map(|column| Entry::ColumnTotal { column }));
    all.push(Entry::GrandTotal);
    all
}

#[cfg(test)]
mod tests {
    use super::*;

    #[test]
    fn names_stand_in_the_order_of_the_entries() {
        let cell = |row, column| Entry::Cell { row, column };
        let expected = [
            cell(1, 1),
            cell(1, 2),
            cell(1, 3),
            cell(2, 1),
            cell(2, 2),
            cell(2, 3),
            Entry::RowTotal { row: 1 },
            Entry::RowTotal { row: 2 },
            Entry::ColumnTotal { column: 1 },
            Entry::ColumnTotal { column: 2 },
            Entry::ColumnTotal { column: 3 },
            Entry::GrandTotal,
        ];
        assert_eq!(names(2, 3), expected);
    }

    #[test]
    fn a_reply_has_four_numbers() {
        let reply = |entry, rounded| Reason { entry, rounded }.numbers();
        let cell = Entry::Cell { row: 5, column: 7 };
        assert_eq!(reply(cell, Rounded::AllWhole), [1, 5, 7, 0]);
        assert_eq!(reply(cell, Rounded::Up), [1, 5, 7, 2]);
        let row = Entry::RowTotal { row: 12 };
        assert_eq!(reply(row, Rounded::Down), [2, 12, 0, 1]);
        let column = Entry::ColumnTotal { column: 9 };
        assert_eq!(reply(column, Rounded::Up), [3, 0, 9, 2]);
        assert_eq!(reply(Entry::GrandTotal, Rounded::Down), [4, 0, 0, 1]);
    }
}
