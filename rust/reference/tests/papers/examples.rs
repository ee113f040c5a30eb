//! The examples of the specification and of the documents that it names.

use crate::samples::{accepted, listed_plan, stated_plan, stored_plan, table};
use reference::{
    campaign_draw, draw, encode, is_controlled_rounding, open, plan, plan_of, start, Plan, Refusal,
    Table,
};
use tables::papers::{self, Example};
use tables::GivenTable;

/// Planning gives the weights and counts that are stated.
fn assert_planned(example: Example) {
    let stated = stated_plan(example);
    assert_eq!(plan_of(&stated.table), stated);
}

/// What planning answers with room for every plan.
fn answer(given: &GivenTable) -> Result<u32, Refusal> {
    plan(
        given.rows,
        given.columns,
        given.denominator,
        &given.cells,
        &mut [0; 50_912],
    )
}

#[test]
fn the_listing_is_planned() {
    assert_planned(papers::listing());
}

#[test]
fn draws_of_the_listing() {
    let bytes = encode(&listed_plan());
    for (number, array) in papers::LISTING_DRAWS.into_iter().enumerate() {
        let mut counts = [9; 4];
        assert_eq!(draw(&bytes, number as u32, &mut counts), Ok(()));
        let expected = &listed_plan().arrays[array].counts;
        assert_eq!(counts.map(u64::from).to_vec(), *expected);
    }
}

#[test]
fn one_cell_is_planned() {
    assert_planned(papers::one_cell());
}

#[test]
fn four_halves_are_planned() {
    assert_planned(papers::four_halves());
}

#[test]
fn one_row_with_a_whole_cell_is_planned() {
    assert_planned(papers::one_row());
}

#[test]
fn zeros_are_planned_as_one_array() {
    for denominator in [1, 2, 7, 1000, 65_535] {
        for (rows, columns) in [(1, 1), (1, 12), (12, 1), (3, 4), (12, 12)] {
            let table = accepted(&GivenTable::uniform(rows, columns, denominator, 0));
            let zeros = (u64::from(denominator), table.cells.clone());
            assert_eq!(plan_of(&table), Plan::new(table, [zeros]));
        }
    }
}

#[test]
fn bounds_of_the_denominator() {
    let answer = |denominator| answer(&GivenTable::uniform(1, 1, denominator, 0));
    assert_eq!(answer(65_535), Ok(30));
    assert_eq!(answer(0), Err(Refusal::Denominator));
    assert_eq!(answer(65_536), Err(Refusal::Denominator));
}

#[test]
fn bounds_of_rows_and_columns() {
    let answer = |rows, columns| answer(&GivenTable::uniform(rows, columns, 1, 0));
    assert_eq!(answer(12, 1), Ok(96));
    assert_eq!(answer(1, 12), Ok(96));
    for size in [0, 13] {
        assert_eq!(answer(size, 1), Err(Refusal::Size));
        assert_eq!(answer(1, size), Err(Refusal::Size));
    }
}

#[test]
fn bound_of_a_cell() {
    for denominator in [1, 2, 65_535] {
        let one_cell = |cell| GivenTable::uniform(1, 1, denominator, cell);
        let table = accepted(&one_cell(1000 * denominator));
        let whole = (u64::from(denominator), [1000]);
        assert_eq!(plan_of(&table), Plan::new(table, [whole]));
        let above = answer(&one_cell(1000 * denominator + 1));
        assert_eq!(above, Err(Refusal::LargeCell));
    }
}

#[test]
fn a_plan_one_byte_longer_does_not_open() {
    let mut bytes = encode(&listed_plan());
    bytes.push(0);
    assert_eq!(open(&bytes), Err(Refusal::Layout));
}

#[test]
fn weights_one_short_of_the_denominator_do_not_open() {
    let mut plan = listed_plan();
    plan.arrays[2].weight -= 1;
    assert_eq!(open(&encode(&plan)), Err(Refusal::Content));
    let balanced = stated_plan(papers::weights_one_short());
    assert_eq!(open(&encode(&balanced)), Err(Refusal::Content));
}

#[test]
fn campaign_over_one_number() {
    let bytes = stored_plan(&table(1, 1, 1, &[5]));
    let (mut taken, mut rounds, mut bits, mut tally, mut counts) = (7, 7, [7], [7], [7]);
    assert_eq!(
        start(&bytes, &mut taken, &mut rounds, &mut bits, &mut tally),
        Ok(())
    );
    let mut drawn = |number| {
        campaign_draw(
            &bytes,
            number,
            &mut taken,
            &mut rounds,
            &mut bits,
            &mut tally,
            &mut counts,
        )
    };
    assert_eq!(drawn(0), Ok(()));
    assert_eq!(drawn(1), Err(Refusal::DrawNumber));
    assert_eq!(drawn(0), Ok(()));
    assert_eq!((taken, rounds, bits, tally, counts), (0, 2, [0], [10], [5]));
}

/// Every array rounds the table with all its totals, the grand total being whole,
/// and what is stored opens again.
fn assert_planned_soundly(table: &Table, grand_total: u64) {
    let plan = plan_of(table);
    for array in &plan.arrays {
        assert!(is_controlled_rounding(
            table.rows,
            table.columns,
            table.denominator,
            &table.cells,
            &array.counts
        ));
        assert_eq!(array.counts.iter().sum::<u64>(), grand_total);
    }
    assert_eq!(open(&encode(&plan)), Ok(plan));
}

#[test]
fn the_four_by_four_table_of_document_002_is_planned() {
    assert_planned_soundly(&accepted(&papers::document_002()), 6);
}

#[test]
fn problem_2_1_of_document_004_is_planned() {
    assert_planned_soundly(&accepted(&papers::problem_2_1()), 6);
}

#[test]
fn problem_2_2_of_document_004_is_planned() {
    assert_planned_soundly(&accepted(&papers::problem_2_2()), 8);
}

#[test]
fn problem_2_4_of_document_004_is_planned() {
    assert_planned_soundly(&accepted(&papers::problem_2_4()), 37);
}

fn assert_opens(plan: Plan) {
    assert_eq!(open(&encode(&plan)), Ok(plan));
}

#[test]
fn the_three_arrays_of_document_001_open() {
    assert_opens(stated_plan(papers::document_001()));
}

#[test]
fn both_solutions_of_document_004_to_problem_2_1_open() {
    assert_opens(stated_plan(papers::problem_2_1_common()));
    assert_opens(stated_plan(papers::problem_2_1_method_3()));
}

#[test]
fn the_solutions_of_document_004_to_problem_2_2_open() {
    assert_opens(stated_plan(papers::problem_2_2_new_methods()));
    assert_opens(stated_plan(papers::problem_2_2_sitter_skinner()));
    assert_opens(stated_plan(papers::problem_2_2_jessen()));
}

#[test]
fn arrays_that_do_not_keep_the_grand_total_do_not_open() {
    let plan = stated_plan(papers::grand_total_not_kept());
    assert_eq!(open(&encode(&plan)), Err(Refusal::Content));
}

#[test]
fn equal_arrays_may_recur() {
    let mut plan = listed_plan();
    plan.arrays[2].weight = 1;
    let mut copy = plan.arrays[2].clone();
    copy.weight = 3;
    plan.arrays.insert(0, copy);
    assert_opens(plan);
}
