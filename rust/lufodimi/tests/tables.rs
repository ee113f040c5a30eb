//! Tables: what is accepted, every refusal, the first controlled rounding, and pooling.

use lufodimi::{Plan, PoolError, Refusal, Table};
use std::error::Error;

fn refusal(rows: u32, columns: u32, denominator: u32, cells: Vec<u32>) -> Option<u32> {
    let table = Table::new(rows, columns, denominator, cells);
    table.err().map(Refusal::number)
}

#[test]
fn tables_are_refused_by_1_to_4() {
    assert_eq!(refusal(13, 1, 1, vec![0; 13]), Some(1));
    assert_eq!(refusal(1, 0, 1, vec![]), Some(1));
    assert_eq!(refusal(1, 1, 0, vec![0]), Some(2));
    assert_eq!(refusal(1, 1, 65_536, vec![0]), Some(2));
    assert_eq!(refusal(1, 2, 1, vec![0]), Some(3));
    assert_eq!(refusal(1, 2, 1, vec![0; 3]), Some(3));
    assert_eq!(refusal(1, 1, 1, vec![1001]), Some(4));
}

#[test]
fn the_lowest_refusal_is_returned() {
    assert_eq!(refusal(0, 1, 0, vec![1]), Some(1));
    assert_eq!(refusal(u32::MAX, u32::MAX, 1, vec![0]), Some(1));
    assert_eq!(refusal(1, 2, 0, vec![1]), Some(2));
    assert_eq!(refusal(1, 2, 1, vec![1001]), Some(3));
}

#[test]
fn the_bounds_are_the_constants() {
    let (rows, columns) = (Table::MAX_ROWS, Table::MAX_COLUMNS);
    let denominator = Table::MAX_DENOMINATOR;
    let cells = vec![Table::MAX_COUNT * denominator; 144];
    let largest = Table::new(rows, columns, denominator, cells.clone());
    assert_eq!(largest.map(|table| table.round()), Ok(vec![1000; 144]));
    let more = [&cells[..], &[0; 12]].concat();
    assert_eq!(
        refusal(rows + 1, columns, denominator, more.clone()),
        Some(1)
    );
    assert_eq!(refusal(rows, columns + 1, denominator, more), Some(1));
    assert_eq!(refusal(rows, columns, denominator + 1, cells), Some(2));
    let large = Table::MAX_COUNT * denominator + 1;
    assert_eq!(refusal(1, 1, denominator, vec![large]), Some(4));
}

#[test]
fn cells_come_as_array_slice_or_vec() {
    let table = Table::new(1, 2, 4, [4, 6]);
    let cells = vec![4, 6];
    assert_eq!(Table::new(1, 2, 4, &cells[..]), table);
    assert_eq!(Table::new(1, 2, 4, cells), table);
}

#[test]
fn the_rounding_is_the_array_of_number_0() {
    for cells in [[3, 4, 5, 6], [10, 0, 7, 9], [1, 1, 1, 1]] {
        let table = Table::new(2, 2, 10, cells).expect("accepted");
        assert_eq!(Plan::of(&table).draw(0), Ok(table.round()));
    }
}

/// A table that must be accepted.
fn table(rows: u32, columns: u32, denominator: u32, cells: &[u32]) -> Table {
    Table::new(rows, columns, denominator, cells).expect("accepted")
}

/// A standing table of three shelf zones by four kinds, a week's recall list, and both
/// pooled.
fn recall() -> [Table; 3] {
    let standing = [45, 23, 0, 12, 31, 26, 4, 19, 0, 14, 52, 14];
    let list = [0, 0, 0, 0, 0, 0, 0, 3, 0, 2, 0, 0];
    let pooled = [90, 46, 0, 24, 62, 52, 8, 53, 0, 38, 104, 28];
    [
        table(3, 4, 10, &standing),
        table(3, 4, 4, &list),
        table(3, 4, 20, &pooled),
    ]
}

#[test]
fn a_recall_list_is_pooled_with_the_standing_table() {
    let [standing, list, pooled] = recall();
    assert_eq!(standing.pool(&list).as_ref(), Ok(&pooled));
    assert_eq!(list.pool(&standing), Ok(pooled));
}

#[test]
fn tables_of_different_sizes_are_not_pooled() {
    let wide = table(2, 3, 10, &[1; 6]);
    for (rows, columns) in [(3, 2), (2, 2), (1, 3), (6, 1), (12, 12)] {
        let cells = vec![1; (rows * columns) as usize];
        let other = table(rows, columns, 10, &cells);
        assert_eq!(wide.pool(&other), Err(PoolError::Sizes));
        assert_eq!(other.pool(&wide), Err(PoolError::Sizes));
    }
    // the sizes come before the multiple
    let over_another = table(3, 2, 65_521, &[1; 6]);
    assert_eq!(wide.pool(&over_another), Err(PoolError::Sizes));
}

#[test]
fn errors_of_pooling_are_sentences() {
    let sizes = "the rows or the columns of the two tables differ";
    let multiple = "the least common multiple of the two denominators is above 65,535";
    let numbered = "the least common multiple of the two denominators is above 65,535 (refusal 11)";
    for (error, sentence, debug) in [
        (PoolError::Sizes, sizes, sizes),
        (Refusal::Multiple.into(), multiple, numbered),
    ] {
        assert_eq!(error.to_string(), sentence);
        let shown: Box<dyn Error> = error.into();
        assert_eq!(format!("{shown:?}"), debug);
    }
}

#[test]
fn the_multiple_is_at_most_the_largest_denominator() {
    let pooled = |one, other| table(1, 1, one, &[1]).pool(&table(1, 1, other, &[1]));
    assert_eq!(pooled(255, 257), Ok(table(1, 1, 65_535, &[512])));
    let refused = Err(PoolError::Refused(Refusal::Multiple));
    assert_eq!(pooled(256, 257), refused);
    assert_eq!(pooled(2, 32_769), refused);
    assert_eq!(pooled(65_534, 65_535), refused);
}

#[test]
fn a_pooled_cell_is_at_most_the_largest_count() {
    let pooled = |one, other| table(1, 2, 10, &[0, one]).pool(&table(1, 2, 4, &[0, other]));
    assert_eq!(pooled(9000, 400), Ok(table(1, 2, 20, &[0, 20_000])));
    let refused = Err(PoolError::Refused(Refusal::PooledCell));
    assert_eq!(pooled(8998, 401), refused);
    assert_eq!(pooled(10_000, 4000), refused);
}

#[test]
fn the_multiple_is_refused_before_a_pooled_cell() {
    let (one, other) = (table(1, 1, 2, &[2000]), table(1, 1, 32_769, &[32_769_000]));
    let refused = Err(PoolError::Refused(Refusal::Multiple));
    assert_eq!(one.pool(&other), refused);
}

#[test]
fn zeros_over_the_same_denominator_give_the_table_back() {
    let [standing, ..] = recall();
    let zeros = table(3, 4, 10, &[0; 12]);
    assert_eq!(standing.pool(&zeros).as_ref(), Ok(&standing));
    assert_eq!(zeros.pool(&standing), Ok(standing));
}

#[test]
fn a_pooled_table_is_planned() {
    let [standing, list, pooled] = recall();
    let plan = Plan::of(&standing.pool(&list).expect("pooled"));
    assert_eq!(plan.table(), &pooled);
    let mut drawn = [0; 12];
    for number in 0..plan.denominator() {
        let counts = plan.draw(number).expect("below the denominator");
        for (sum, count) in drawn.iter_mut().zip(counts) {
            *sum += u32::from(count);
        }
    }
    assert_eq!(drawn, pooled.cells());
}
