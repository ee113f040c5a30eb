//! Why an array of a plan has its weight.

use lufodimi::{Entry, Plan, Reason, Refusal, Table};

/// A table that must be accepted.
fn table(rows: u32, columns: u32, denominator: u32, cells: &[u32]) -> Table {
    Table::new(rows, columns, denominator, cells).expect("accepted")
}

/// The reasons of all arrays of a table's plan, in order.
fn reasons(table: &Table) -> Vec<Reason> {
    (1..=Plan::of(table).array_count())
        .map(|array| table.reason(array).expect("the plan has the array"))
        .collect()
}

/// The reason of a last array.
const ALL_WHOLE: Reason = Reason::AllWhole(Entry::Cell { row: 1, column: 1 });

#[test]
fn the_listing_by_hand() {
    let expected = [
        Reason::Down(Entry::ColumnTotal { column: 1 }),
        Reason::Down(Entry::RowTotal { row: 1 }),
        Reason::Down(Entry::Cell { row: 1, column: 1 }),
        ALL_WHOLE,
    ];
    assert_eq!(reasons(&table(2, 2, 10, &[3, 4, 5, 6])), expected);
}

#[test]
fn every_kind_of_entry_in_one_plan() {
    let found = reasons(&table(2, 3, 10, &[22, 1, 0, 14, 16, 6]));
    let expected = [
        Reason::Down(Entry::GrandTotal),
        Reason::Down(Entry::ColumnTotal { column: 1 }),
        Reason::Up(Entry::Cell { row: 2, column: 3 }),
        Reason::Down(Entry::RowTotal { row: 1 }),
        Reason::Down(Entry::Cell { row: 1, column: 1 }),
        ALL_WHOLE,
    ];
    assert_eq!(found, expected);
}

#[test]
fn an_array_that_the_plan_does_not_have_is_refused_by_14() {
    let listing = table(2, 2, 10, &[3, 4, 5, 6]);
    for array in [0, 5, 171, 1 << 31, u32::MAX] {
        assert_eq!(listing.reason(array), Err(Refusal::Array));
    }
    let whole = table(1, 2, 7, &[14, 7000]);
    assert_eq!(whole.reason(1), Ok(ALL_WHOLE));
    assert_eq!(whole.reason(2), Err(Refusal::Array));
}

#[test]
fn all_entries_are_whole_just_for_the_last_array() {
    let cells: Vec<u32> = (0..144).map(|place| place * 455 % 65_535).collect();
    for table in [
        table(2, 3, 1000, &[300_400, 70, 65_936, 1500, 260, 999]),
        table(12, 12, 65_535, &cells),
    ] {
        let found = reasons(&table);
        let (last, before) = found.split_last().expect("a plan has an array");
        assert_eq!(*last, ALL_WHOLE);
        let is_whole = |reason: &Reason| matches!(reason, Reason::AllWhole(_));
        assert!(before.len() > 1 && !before.iter().any(is_whole));
    }
}
