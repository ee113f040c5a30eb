//! Walks through all controlled roundings of a small table.

use lufodimi::{Plan, Refusal, Roundings, Table};
use std::iter::FusedIterator;

/// A table that must be accepted.
fn table(rows: u32, columns: u32, denominator: u32, cells: &[u32]) -> Table {
    Table::new(rows, columns, denominator, cells).expect("accepted")
}

/// All controlled roundings of a table that can be walked through.
fn roundings(table: &Table) -> Vec<Vec<u16>> {
    table.roundings().expect("walked through").collect()
}

/// Jessen's problem of 1970, three by three in tenths, and its controlled roundings.
fn jessen() -> (Table, [[u16; 9]; 6]) {
    let arrays = [
        [0, 1, 1, 1, 0, 1, 1, 1, 0],
        [0, 1, 1, 1, 1, 0, 1, 0, 1],
        [1, 0, 1, 0, 1, 1, 1, 1, 0],
        [1, 0, 1, 1, 1, 0, 0, 1, 1],
        [1, 1, 0, 0, 1, 1, 1, 0, 1],
        [1, 1, 0, 1, 0, 1, 0, 1, 1],
    ];
    (table(3, 3, 10, &[8, 5, 7, 7, 8, 5, 5, 7, 8]), arrays)
}

#[test]
fn six_arrays_of_three_by_three() {
    let (table, arrays) = jessen();
    assert_eq!(roundings(&table), arrays);
}

#[test]
fn thirty_arrays_of_four_by_four() {
    let cells = [0, 6, 10, 4, 8, 4, 4, 4, 6, 2, 4, 8, 6, 8, 2, 4];
    let all = roundings(&table(4, 4, 10, &cells));
    assert_eq!(all.len(), 30);
    assert!(all.is_sorted_by(|one, next| one < next));
}

#[test]
fn one_cell_and_whole_cells() {
    assert_eq!(roundings(&table(1, 1, 3, &[2])), [[0], [1]]);
    assert_eq!(
        roundings(&table(1, 1, 65_535, &[65_534_999])),
        [[999], [1000]]
    );
    assert_eq!(roundings(&table(1, 1, 65_535, &[65_535_000])), [[1000]]);
    assert_eq!(roundings(&table(2, 2, 4, &[4, 8, 0, 12])), [[1, 2, 0, 3]]);
    assert_eq!(roundings(&table(4, 4, 7, &[7000; 16])), [[1000; 16]]);
}

#[test]
fn it_begins_with_the_first_rounding_and_has_every_array_of_the_plan() {
    for table in [
        table(2, 3, 1000, &[300_400, 70, 65_936, 1500, 260, 999]),
        table(3, 4, 10, &[45, 23, 0, 12, 31, 26, 4, 19, 0, 14, 52, 14]),
        table(
            4,
            2,
            65_535,
            &[1, 65_534, 32_767, 32_768, 5, 6, 7, 65_535_000],
        ),
    ] {
        let all = roundings(&table);
        assert_eq!(all[0], table.round());
        assert!(all.is_sorted_by(|one, next| one < next));
        for array in Plan::of(&table).arrays() {
            assert!(all.contains(&array.counts), "{array:?}");
        }
    }
}

#[test]
fn a_walk_goes_on_after_any_of_its_arrays() {
    let (table, arrays) = jessen();
    for (place, array) in arrays.iter().enumerate() {
        let after = table.roundings_after(array).expect("a controlled rounding");
        assert!(after.eq(arrays[place + 1..].iter().copied()));
    }
}

#[test]
fn more_than_four_rows_or_columns_are_refused_by_15() {
    for (rows, columns) in [(5, 1), (1, 5), (5, 4), (4, 5), (12, 12)] {
        let cells = vec![1; (rows * columns) as usize];
        let large = table(rows, columns, 2, &cells);
        assert_eq!(large.roundings().err(), Some(Refusal::WalkSize));
        // before 16
        let none: &[u16] = &[];
        assert_eq!(large.roundings_after(none).err(), Some(Refusal::WalkSize));
    }
    let largest = table(Table::MAX_WALK_ROWS, Table::MAX_WALK_COLUMNS, 1, &[5; 16]);
    assert_eq!(roundings(&largest), [[5; 16]]);
}

#[test]
fn what_is_no_controlled_rounding_is_refused_by_16() {
    let (table, arrays) = jessen();
    let refused = |array: &[u16]| table.roundings_after(array).err();
    for place in 0..9 {
        for count in [2, 256, 257, 65_535] {
            let mut array = arrays[0];
            array[place] = count;
            assert_eq!(refused(&array), Some(Refusal::NotRounding));
        }
    }
    assert_eq!(refused(&[0; 9]), Some(Refusal::NotRounding));
    assert_eq!(refused(&arrays[0][..8]), Some(Refusal::NotRounding));
    assert_eq!(
        refused(&[&arrays[0][..], &[0]].concat()),
        Some(Refusal::NotRounding)
    );
    assert_eq!(refused(&[]), Some(Refusal::NotRounding));
}

/// What is fused stays at its end.
fn ends_for_good(mut iterator: impl FusedIterator) {
    while iterator.next().is_some() {}
    for _ in 0..3 {
        assert!(iterator.next().is_none());
    }
    assert_eq!(iterator.size_hint(), (0, Some(0)));
}

#[test]
fn it_is_fused() {
    let (table, arrays) = jessen();
    ends_for_good(table.roundings().expect("walked through"));
    ends_for_good(table.roundings_after(&arrays[5]).expect("the last"));
}

#[test]
fn hints_hold_and_a_copy_goes_its_own_way() {
    let (table, arrays) = jessen();
    let mut walk: Roundings = table.roundings().expect("walked through");
    for place in 0..6 {
        assert_eq!(walk.size_hint(), (1, None));
        assert!(walk.clone().eq(arrays[place..].iter().copied()));
        assert_eq!(walk.next(), Some(arrays[place].to_vec()));
    }
    assert_eq!(walk.next(), None);
}
