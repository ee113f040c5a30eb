//! Walks through all controlled roundings of small tables: what 02 says of them, the figures
//! of the documents, and all arrays of small tables by brute force.

use crate::brute_force::{all_roundings, for_all_tables};
use crate::samples::{accepted, planned_arrays, table};
use reference::{
    first_rounding, is_controlled_rounding, number_of, walk_first, walk_next, Refusal, Step, Table,
    Walk,
};
use tables::papers::{self, Example};
use tables::{random_table_of, Generator, GivenTable};

/// The arrays of a table, by the two calls: the first, then each next until the last.
fn walked(given: &GivenTable) -> Vec<Vec<u16>> {
    let mut counts = vec![8; given.cells.len()];
    let (rows, columns, denominator) = (given.rows, given.columns, given.denominator);
    let first = walk_first(rows, columns, denominator, &given.cells, &mut counts);
    assert_eq!(first, Ok(()), "{given:?}");
    let mut arrays = vec![counts.clone()];
    loop {
        let array = arrays[arrays.len() - 1].clone();
        let answer = walk_next(
            rows,
            columns,
            denominator,
            &given.cells,
            &array,
            &mut counts,
        );
        match answer.expect("the array is a controlled rounding") {
            Step::Next => arrays.push(counts.clone()),
            Step::Last => return arrays,
        }
    }
}

/// The list that both calls go by.
fn listed(table: &Table) -> Vec<Vec<u64>> {
    let cells: Vec<u32> = table.cells.iter().map(|&cell| cell as u32).collect();
    let denominator = table.denominator as u32;
    let walk = Walk::accept(table.rows as u32, table.columns as u32, denominator, &cells);
    let wide = |counts: &Vec<u16>| counts.iter().copied().map(u64::from).collect();
    walk.expect("accepted").arrays().iter().map(wide).collect()
}

#[test]
fn problem_2_1_of_document_004() {
    assert_eq!(
        walked(&papers::problem_2_1()),
        papers::PROBLEM_2_1_ARRAYS.map(Vec::from)
    );
    assert_same_as_brute_force(&accepted(&papers::problem_2_1()));
}

#[test]
fn problem_2_2_of_document_004_has_thirty_arrays() {
    assert_eq!(walked(&papers::problem_2_2()).len(), 30);
    assert_same_as_brute_force(&accepted(&papers::problem_2_2()));
}

/// The arrays that a document states for a table are among those of the walk.
fn assert_has(example: Example) {
    let all = listed(&accepted(&example.table));
    for (_, counts) in example.arrays {
        assert!(all.contains(&counts), "{counts:?}");
    }
}

#[test]
fn arrays_of_the_documents_are_walked_through() {
    assert_has(papers::document_001());
    assert_has(papers::problem_2_1_common());
    assert_has(papers::problem_2_1_method_3());
    assert_has(papers::problem_2_2_new_methods());
    assert_has(papers::problem_2_2_sitter_skinner());
    assert_has(papers::problem_2_2_jessen());
}

#[test]
fn the_arrays_of_a_plan_are_walked_through_and_the_first_is_the_first() {
    let mut generator = Generator::new(81);
    for rows in 1..=4 {
        for columns in 1..=4 {
            for _ in 0..4 {
                let table = accepted(&random_table_of(&mut generator, rows, columns));
                let (planned, all) = (planned_arrays(&table), listed(&table));
                assert_eq!(planned[0].1, all[0], "{table:?}");
                for (_, counts) in planned {
                    assert!(all.contains(&counts), "{table:?}: {counts:?}");
                }
            }
        }
    }
}

#[test]
fn one_cell_has_one_array_or_two() {
    assert_eq!(walked(&GivenTable::by_rows(3, &[[2]])), [[0], [1]]);
    assert_eq!(walked(&GivenTable::by_rows(3, &[[3]])), [[1]]);
    assert_eq!(
        walked(&GivenTable::by_rows(65_535, &[[65_534_999]])),
        [[999], [1000]]
    );
}

#[test]
fn whole_cells_have_one_array() {
    for (rows, columns) in [(1, 1), (1, 4), (4, 1), (3, 2), (4, 4)] {
        for (denominator, count) in [(1, 0), (1, 1000), (7, 2), (65_535, 1000)] {
            let given = GivenTable::uniform(rows, columns, denominator, count * denominator);
            assert_eq!(walked(&given), [vec![count as u16; given.cells.len()]]);
        }
    }
}

#[test]
fn halves_of_four_by_four() {
    // two of four in each row and each column: 90 ways
    assert_eq!(walked(&GivenTable::uniform(4, 4, 2, 1)).len(), 90);
    // one of four in each: the 24 orders of four
    assert_eq!(walked(&GivenTable::uniform(4, 4, 4, 1)).len(), 24);
}

/// The list has just the controlled roundings among all arrays, in rising order.
fn assert_same_as_brute_force(table: &Table) {
    let (rows, columns) = (table.rows, table.columns);
    let all = all_roundings(rows, columns, table.denominator, &table.cells);
    assert_eq!(listed(table), all, "{table:?}");
}

#[test]
fn all_of_one_cell() {
    for denominator in 1..=12 {
        for_all_tables(1, 1, denominator, 30, assert_same_as_brute_force);
    }
}

#[test]
fn all_of_lines() {
    for denominator in 1..=5 {
        for (rows, columns, largest) in [(1, 2, 11), (2, 1, 11), (1, 3, 6), (3, 1, 6)] {
            for_all_tables(
                rows,
                columns,
                denominator,
                largest,
                assert_same_as_brute_force,
            );
        }
    }
    for denominator in 2..=4 {
        for_all_tables(1, 4, denominator, 3, assert_same_as_brute_force);
        for_all_tables(4, 1, denominator, 3, assert_same_as_brute_force);
    }
}

#[test]
fn all_of_two_by_two_and_two_by_three() {
    for denominator in 1..=5 {
        for_all_tables(2, 2, denominator, 6, assert_same_as_brute_force);
    }
    for denominator in 2..=4 {
        for_all_tables(2, 3, denominator, 2, assert_same_as_brute_force);
        for_all_tables(3, 2, denominator, 2, assert_same_as_brute_force);
    }
}

#[test]
fn random_ones_of_four_by_four() {
    let mut generator = Generator::new(82);
    for _ in 0..20 {
        let denominator = generator.between(2, 9) as u32;
        let cell = |_| generator.below(u64::from(denominator)) as u32;
        let cells: Vec<u32> = (0..16).map(cell).collect();
        assert_same_as_brute_force(&table(4, 4, denominator, &cells));
    }
}

#[test]
fn large_counts_rise_and_all_round() {
    let mut generator = Generator::new(83);
    for rows in 1..=4 {
        for columns in 1..=4 {
            let table = accepted(&random_table_of(&mut generator, rows, columns));
            let (rows, columns) = (table.rows, table.columns);
            let all = listed(&table);
            assert!(all.is_sorted_by(|one, next| one < next));
            assert!(all.iter().all(|counts| {
                is_controlled_rounding(rows, columns, table.denominator, &table.cells, counts)
            }));
            let first = first_rounding(rows, columns, table.denominator, &table.cells);
            assert_eq!(all[0], first);
        }
    }
}

/// What the second call answers for a table, and the buffer as it leaves it.
fn answered(given: &GivenTable, array: &[u16], room: usize) -> (u32, Vec<u16>) {
    let mut counts = vec![8; room];
    let answer = walk_next(
        given.rows,
        given.columns,
        given.denominator,
        &given.cells,
        array,
        &mut counts,
    );
    (answer.map_or_else(Refusal::number, Step::number), counts)
}

#[test]
fn the_rest_of_the_buffer_stays_and_all_of_it_at_the_last() {
    let listing = papers::listing().table;
    let first = [0, 0, 0, 1];
    assert_eq!(answered(&listing, &first, 4), (0, vec![0, 0, 1, 1]));
    assert_eq!(answered(&listing, &first, 6), (0, vec![0, 0, 1, 1, 8, 8]));
    let last = [1, 0, 0, 1];
    for room in [4, 5] {
        assert_eq!(answered(&listing, &last, room), (255, vec![8; room]));
    }
    for room in 0..4 {
        assert_eq!(answered(&listing, &first, room), (7, vec![8; room]));
        assert_eq!(answered(&listing, &last, room), (7, vec![8; room]));
    }
}

#[test]
fn an_array_that_is_no_controlled_rounding_is_16_before_7() {
    let listing = papers::listing().table;
    for array in [
        &[0, 0, 0, 0][..],
        &[0, 0, 0, 2],
        &[0, 1, 0, 1],
        &[1, 1, 1, 1],
        &[0, 0, 0, 257],
        &[0, 0, 0],
        &[0, 0, 0, 1, 0],
        &[],
    ] {
        for room in [0, 3, 4, 5] {
            let refused = (Refusal::NotRounding.number(), vec![8; room]);
            assert_eq!(answered(&listing, array, room), refused);
        }
    }
}

#[test]
fn the_size_is_tested_first_then_15_then_the_table_then_the_array() {
    let good = GivenTable::uniform(4, 4, 10, 3);
    let with = |rows, columns, denominator, cells: &[u32]| GivenTable {
        rows,
        columns,
        denominator,
        cells: cells.to_vec(),
    };
    let cases = [
        (with(13, 5, 0, &[]), 1),
        (with(0, 5, 10, &[]), 1),
        (with(5, u32::MAX, 10, &[]), 1),
        (with(5, 4, 0, &[10_001]), 15),
        (with(4, 5, 10, &[10_001]), 15),
        (with(5, 4, 10, &[10_001; 20]), 15),
        (with(12, 12, 10, &[3; 144]), 15),
        (with(4, 4, 65_536, &[0; 15]), 2),
        (with(4, 4, 10, &[10_001; 15]), 3),
        (with(4, 4, 10, &[10_001; 16]), 4),
    ];
    for (given, refused) in cases {
        for room in [0, 15, 16, 20] {
            for array in [&[][..], &[0; 16]] {
                assert_eq!(answered(&given, array, room), (refused, vec![8; room]));
            }
            let mut counts = vec![8; room];
            let (rows, columns, denominator) = (given.rows, given.columns, given.denominator);
            let first = walk_first(rows, columns, denominator, &given.cells, &mut counts);
            assert_eq!((number_of(first), counts), (refused, vec![8; room]));
        }
    }
    assert_eq!(answered(&good, &[0; 16], 0).0, 16);
}
