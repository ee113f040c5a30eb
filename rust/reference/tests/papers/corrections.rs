//! Roundings of corrections against a search through all arrays, and what 02 says of them.

use reference::{first_by_search, first_rounding, first_signed_rounding};
use reference::{number_of, round_signed};
use tables::corrections::WAYS;
use tables::{all_sizes, random_denominator, random_table, Generator, GivenCorrections};

fn assert_same_as_search(given: &GivenCorrections) {
    let (rows, columns) = (given.rows as usize, given.columns as usize);
    let denominator = i64::from(given.denominator);
    let cells: Vec<i64> = given.cells.iter().copied().map(i64::from).collect();
    let found = first_signed_rounding(rows, columns, denominator, &cells);
    let searched = first_by_search(rows, columns, denominator, &cells);
    assert_eq!(Some(found), searched, "{given:?}");
}

/// Every table of this size with cells from `-largest` to `largest`.
fn assert_all_same(rows: u32, columns: u32, denominator: u32, largest: u32) {
    let values = 2 * largest + 1;
    for index in 0..values.pow(rows * columns) {
        let cell = |place: u32| (index / values.pow(place) % values) as i32 - largest as i32;
        assert_same_as_search(&GivenCorrections {
            rows,
            columns,
            denominator,
            cells: (0..rows * columns).map(cell).collect(),
        });
    }
}

#[test]
fn all_of_one_cell() {
    for denominator in 1..=9 {
        assert_all_same(1, 1, denominator, 30);
    }
}

#[test]
fn all_of_two_cells() {
    for denominator in 1..=6 {
        assert_all_same(1, 2, denominator, 13);
        assert_all_same(2, 1, denominator, 13);
    }
}

#[test]
fn all_of_two_by_two() {
    for denominator in 1..=4 {
        assert_all_same(2, 2, denominator, 4);
    }
}

#[test]
fn all_of_two_by_three_with_cells_up_to_one() {
    for denominator in 2..=4 {
        assert_all_same(2, 3, denominator, 1);
        assert_all_same(3, 2, denominator, 1);
    }
}

#[test]
fn random_ones_of_up_to_twelve_cells() {
    let mut generator = Generator::new(71);
    for way in WAYS {
        for (rows, columns) in all_sizes().filter(|(rows, columns)| rows * columns <= 12) {
            for _ in 0..4 {
                let denominator = random_denominator(&mut generator);
                assert_same_as_search(&way(&mut generator, rows, columns, denominator));
            }
        }
    }
}

#[test]
fn tables_without_a_cell_below_0_are_rounded_as_before() {
    let mut generator = Generator::new(72);
    for _ in 0..300 {
        let given = random_table(&mut generator, 8);
        let (rows, columns) = (given.rows as usize, given.columns as usize);
        let unsigned: Vec<u64> = given.cells.iter().copied().map(u64::from).collect();
        let signed: Vec<i64> = given.cells.iter().copied().map(i64::from).collect();
        let before = first_rounding(rows, columns, u64::from(given.denominator), &unsigned);
        let found = first_signed_rounding(rows, columns, i64::from(given.denominator), &signed);
        assert!(found.iter().map(|&count| count as u64).eq(before));
    }
}

/// The number that refuses corrections of two columns, and leaves a buffer of this length
/// as it was.
fn refused(rows: u32, denominator: u32, cells: &[i32], room: usize) -> u32 {
    let mut counts = vec![-8; room];
    let answer = round_signed(rows, 2, denominator, cells, &mut counts);
    assert_eq!(counts, vec![-8; room]);
    number_of(answer)
}

#[test]
fn the_table_is_tested_first_then_the_buffer() {
    for room in [0, 3] {
        assert_eq!(refused(13, 0, &[i32::MIN], room), 1);
        assert_eq!(refused(0, 10, &[], room), 1);
        assert_eq!(refused(2, 0, &[i32::MIN], room), 2);
        assert_eq!(refused(2, 65_536, &[0; 4], room), 2);
        assert_eq!(refused(2, 10, &[i32::MIN], room), 3);
        assert_eq!(refused(2, 10, &[-10_001; 5], room), 3);
        for cell in [-10_001, 10_001, i32::MIN, i32::MAX] {
            assert_eq!(refused(2, 10, &[0, 0, 0, cell], room), 4);
            assert_eq!(refused(2, 10, &[0, 0, 0, cell], 4), 4);
        }
        assert_eq!(refused(2, 10, &[-10_000, 0, 0, 10_000], room), 7);
    }
}
