//! Which entry set the weight of an array: what 02 says of it.

use crate::samples::{accepted, reasons, table};
use reference::{number_of, plan_of, reason, Refusal};
use tables::papers::{self, Example};
use tables::{random_table, Generator, GivenTable};

/// The reply of a last array: all entries are whole, and the first cell is named.
const ALL_WHOLE: [u32; 4] = [1, 1, 1, 0];

#[test]
fn the_plans_that_the_specification_states() {
    let of = |example: Example| reasons(&accepted(&example.table));
    let listing = [[3, 0, 1, 1], [2, 1, 0, 1], [1, 1, 1, 1], ALL_WHOLE];
    assert_eq!(of(papers::listing()), listing);
    assert_eq!(of(papers::one_cell()), [[1, 1, 1, 1], ALL_WHOLE]);
    assert_eq!(of(papers::four_halves()), [[1, 1, 1, 1], ALL_WHOLE]);
    assert_eq!(of(papers::one_row()), [[1, 1, 2, 1], ALL_WHOLE]);
}

#[test]
fn every_kind_of_entry_in_one_plan() {
    let found = reasons(&table(2, 3, 10, &[22, 1, 0, 14, 16, 6]));
    let expected = [
        [4, 0, 0, 1],
        [3, 0, 1, 1],
        [1, 2, 3, 2],
        [2, 1, 0, 1],
        [1, 1, 1, 1],
        ALL_WHOLE,
    ];
    assert_eq!(found, expected);
}

#[test]
fn all_entries_are_whole_just_for_the_last_array() {
    let mut generator = Generator::new(61);
    for _ in 0..200 {
        let found = reasons(&accepted(&random_table(&mut generator, 6)));
        let (last, before) = found.split_last().expect("a plan has an array");
        assert_eq!(*last, ALL_WHOLE);
        assert!(before.iter().all(|&[.., direction]| direction != 0));
    }
}

/// The number that the call returns for a table, and the buffer as it leaves it.
fn answered(given: &GivenTable, array: u32, room: usize) -> (u32, Vec<u32>) {
    let mut reply = vec![8; room];
    let answer = reason(
        given.rows,
        given.columns,
        given.denominator,
        &given.cells,
        array,
        &mut reply,
    );
    (number_of(answer), reply)
}

#[test]
fn the_call_plans_the_table_and_leaves_the_rest_of_the_buffer() {
    let listing = papers::listing().table;
    assert_eq!(answered(&listing, 1, 4), (0, vec![3, 0, 1, 1]));
    assert_eq!(answered(&listing, 2, 5), (0, vec![2, 1, 0, 1, 8]));
    assert_eq!(answered(&listing, 4, 6), (0, vec![1, 1, 1, 0, 8, 8]));
}

#[test]
fn an_array_number_is_from_1_to_the_number_of_arrays() {
    let mut generator = Generator::new(62);
    for _ in 0..100 {
        let given = random_table(&mut generator, 4);
        let arrays = plan_of(&accepted(&given)).arrays.len() as u32;
        for array in [1, arrays] {
            assert_eq!(answered(&given, array, 4).0, 0);
        }
        for array in [0, arrays + 1, 171, 1 << 31, u32::MAX] {
            let refused = Refusal::ArrayNumber.number();
            assert_eq!(answered(&given, array, 4), (refused, vec![8; 4]));
        }
    }
}

#[test]
fn the_table_is_tested_first_then_the_array_number_then_the_buffer() {
    let listing = papers::listing().table;
    let tables = [
        (
            GivenTable {
                rows: 13,
                ..listing.clone()
            },
            1,
        ),
        (
            GivenTable {
                denominator: 0,
                ..listing.clone()
            },
            2,
        ),
        (
            GivenTable {
                columns: 3,
                ..listing.clone()
            },
            3,
        ),
        (
            GivenTable {
                denominator: 1,
                cells: vec![0, 0, 0, 1001],
                ..listing.clone()
            },
            4,
        ),
    ];
    for (given, refused) in tables {
        for (array, room) in [(0, 3), (0, 4), (5, 0), (1, 3), (1, 4)] {
            assert_eq!(answered(&given, array, room), (refused, vec![8; room]));
        }
    }
    for room in 0..4 {
        for array in [0, 5] {
            assert_eq!(answered(&listing, array, room), (14, vec![8; room]));
        }
        assert_eq!(answered(&listing, 1, room), (7, vec![8; room]));
    }
}
