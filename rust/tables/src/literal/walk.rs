//! The two calls of a walk through all controlled roundings of a table of up to four by four
//! (02, F-8), with the refusals 1, 2, 3, 4 and 7 of 01; of their own, 15 is tested straight
//! after 1, and 16 after 4 and before 7.

use super::{table, Call, FIVE, FOUR, ONE, SIX, THREE};
use crate::papers::{self, PROBLEM_2_1_ARRAYS};
use crate::GivenTable;

/// A first call: a table and a buffer.
pub type First = Call<GivenTable, u16>;

/// A second call, which is handed an array besides.
pub type Next = Call<Handed, u16>;

/// A table, and the array that is handed in.
#[derive(Debug)]
pub struct Handed {
    pub table: GivenTable,
    pub array: Vec<u16>,
}

/// What the second call returns where the array is the last.
pub const LAST: u32 = 255;

/// Buffers that are lent for an array, by the number of their counts.
const SIXTEEN: &[u16] = &[8; 16];
const THIRTEEN: &[u16] = &[8; 13];
const NINE: &[u16] = &[8; 9];
const TWO: &[u16] = &[8; 2];
const NONE: &[u16] = &[];

/// Three rows and three columns: Jessen's problem (document 004, Problem 2.1), which has six
/// arrays.
fn jessen() -> GivenTable {
    papers::problem_2_1()
}

/// The first table of the specification's examples; four arrays.
fn listing() -> GivenTable {
    papers::listing().table
}

/// Two rows and three columns, with a whole cell; seven arrays.
fn wide() -> GivenTable {
    table(2, 3, 10, &[3, 4, 5, 20, 6, 7])
}

/// All cells whole.
fn whole() -> GivenTable {
    table(2, 2, 5, &[0, 5, 10, 15])
}

/// One cell.
fn half() -> GivenTable {
    table(1, 1, 2, &[1])
}

/// Counts above 255.
fn large() -> GivenTable {
    table(1, 2, 1000, &[300_400, 65_600])
}

/// Four rows and four columns, all whole but for the last two cells.
fn square() -> GivenTable {
    table(4, 4, 2, &ending(1, 1))
}

/// Sixteen numbers, all 0 but for the last two.
fn ending<Number: Copy + Default>(one: Number, other: Number) -> [Number; 16] {
    let mut numbers = [Number::default(); 16];
    numbers[14..].copy_from_slice(&[one, other]);
    numbers
}

fn begins(given: GivenTable, buffer: &[u16], result: &[u16]) -> First {
    Call::returns(given, buffer, 0, result)
}

fn refuses_first(given: GivenTable, buffer: &[u16], number: u32) -> First {
    Call::refuses(given, buffer, number)
}

fn handed(table: GivenTable, array: &[u16]) -> Handed {
    Handed {
        table,
        array: array.to_vec(),
    }
}

fn goes_on(given: GivenTable, array: &[u16], buffer: &[u16], result: &[u16]) -> Next {
    Call::returns(handed(given, array), buffer, 0, result)
}

fn is_last(given: GivenTable, array: &[u16], buffer: &[u16]) -> Next {
    Call::returns(handed(given, array), buffer, LAST, buffer)
}

fn refuses_next(given: GivenTable, array: &[u16], buffer: &[u16], number: u32) -> Next {
    Call::refuses(handed(given, array), buffer, number)
}

pub fn first_calls() -> Vec<First> {
    vec![
        begins(jessen(), NINE, &[0, 1, 1, 1, 0, 1, 1, 1, 0]),
        begins(listing(), FOUR, &[0, 0, 0, 1]),
        begins(wide(), SIX, &[0, 0, 1, 2, 1, 0]),
        begins(whole(), FOUR, &[0, 1, 2, 3]),
        begins(half(), ONE, &[0]),
        begins(large(), TWO, &[300, 66]),
        begins(square(), SIXTEEN, &ending(0, 1)),
        // what the buffer has beyond the array stays
        begins(half(), &[8, 9, 7], &[0, 9, 7]),
        // 7
        refuses_first(jessen(), &[8; 8], 7),
        refuses_first(half(), NONE, 7),
        // 15: rows, columns, both; four of each are accepted above
        refuses_first(table(5, 1, 1, &[0; 5]), FIVE, 15),
        refuses_first(table(1, 5, 1, &[0; 5]), FIVE, 15),
        refuses_first(table(12, 12, 1, &[0; 144]), &[8; 144], 15),
        // 1: no row, no column, more than 12, and sizes of which only the low part is within
        // the bound
        refuses_first(table(0, 1, 1, &[]), ONE, 1),
        refuses_first(table(1, 0, 1, &[]), ONE, 1),
        refuses_first(table(13, 1, 1, &[0; 13]), THIRTEEN, 1),
        refuses_first(table(1, 13, 1, &[0; 13]), THIRTEEN, 1),
        refuses_first(table(257, 1, 1, &[0]), ONE, 1),
        refuses_first(table(1, 65_537, 1, &[0]), ONE, 1),
        // 2, 3 and 4
        refuses_first(table(1, 1, 0, &[0]), ONE, 2),
        refuses_first(table(1, 1, 65_536, &[0]), ONE, 2),
        refuses_first(table(2, 2, 1, &[0; 3]), FOUR, 3),
        refuses_first(table(2, 2, 1, &[0; 5]), FOUR, 3),
        refuses_first(table(1, 2, 7, &[7000, 7001]), TWO, 4),
        refuses_first(table(1, 1, 65_535, &[4_294_967_295]), ONE, 4),
        // 15 with each of 1, 2, 3, 4 and 7
        refuses_first(table(0, 5, 1, &[]), FIVE, 1),
        refuses_first(table(13, 5, 1, &[0; 65]), &[8; 65], 1),
        refuses_first(table(5, 1, 0, &[0; 5]), FIVE, 15),
        refuses_first(table(1, 5, 1, &[0; 4]), FIVE, 15),
        refuses_first(table(5, 1, 1, &[1001, 0, 0, 0, 0]), FIVE, 15),
        refuses_first(table(1, 5, 1, &[0; 5]), FOUR, 15),
        // 1, 2 and 3 with what comes after them
        refuses_first(table(13, 1, 0, &[0; 13]), THIRTEEN, 1),
        refuses_first(table(2, 2, 0, &[0; 3]), FOUR, 2),
        refuses_first(table(2, 2, 1, &[1001, 0, 0]), FOUR, 3),
        refuses_first(table(1, 2, 1, &[1001, 0]), ONE, 4),
    ]
}

pub fn next_calls() -> Vec<Next> {
    let [first, second, third, fourth, fifth, sixth] = &PROBLEM_2_1_ARRAYS;
    vec![
        // Jessen's problem, from the first array to the last
        goes_on(jessen(), first, NINE, second),
        goes_on(jessen(), second, NINE, third),
        goes_on(jessen(), third, NINE, fourth),
        goes_on(jessen(), fourth, NINE, fifth),
        goes_on(jessen(), fifth, NINE, sixth),
        is_last(jessen(), sixth, NINE),
        // the walk of the specification's examples, with 7 at its last array and 16 for arrays
        // that are none of it
        goes_on(listing(), &[0, 0, 0, 1], FOUR, &[0, 0, 1, 1]),
        goes_on(listing(), &[0, 0, 1, 1], FOUR, &[0, 1, 1, 0]),
        goes_on(listing(), &[0, 1, 1, 0], FOUR, &[1, 0, 0, 1]),
        is_last(listing(), &[1, 0, 0, 1], FOUR),
        refuses_next(listing(), &[1, 0, 0, 1], THREE, 7),
        refuses_next(listing(), &[0, 0, 0, 0], FOUR, 16),
        refuses_next(listing(), &[0, 0, 0], FOUR, 16),
        // rows and columns not equally many, with a whole cell
        goes_on(wide(), &[0, 0, 1, 2, 1, 0], SIX, &[0, 0, 1, 2, 1, 1]),
        goes_on(wide(), &[0, 0, 1, 2, 1, 1], SIX, &[0, 1, 0, 2, 0, 1]),
        goes_on(wide(), &[0, 1, 0, 2, 0, 1], SIX, &[0, 1, 1, 2, 0, 1]),
        goes_on(wide(), &[0, 1, 1, 2, 0, 1], SIX, &[1, 0, 0, 2, 1, 1]),
        goes_on(wide(), &[1, 0, 0, 2, 1, 1], SIX, &[1, 0, 1, 2, 1, 0]),
        goes_on(wide(), &[1, 0, 1, 2, 1, 0], SIX, &[1, 1, 0, 2, 0, 1]),
        is_last(wide(), &[1, 1, 0, 2, 0, 1], SIX),
        // all cells whole: the first is the last
        is_last(whole(), &[0, 1, 2, 3], FOUR),
        // one cell, not whole and whole
        goes_on(half(), &[0], ONE, &[1]),
        is_last(half(), &[1], ONE),
        is_last(table(1, 1, 2, &[2]), &[1], ONE),
        // counts above 255, and the largest
        goes_on(large(), &[300, 66], TWO, &[301, 65]),
        is_last(large(), &[301, 65], TWO),
        is_last(table(1, 1, 65_535, &[65_535_000]), &[1000], ONE),
        goes_on(table(1, 1, 65_535, &[65_534_999]), &[999], ONE, &[1000]),
        // four by four
        goes_on(square(), &ending(0, 1), SIXTEEN, &ending(1, 0)),
        // what the buffer has beyond the array stays, and all of it at the last
        goes_on(half(), &[0], &[8, 9, 7], &[1, 9, 7]),
        is_last(half(), &[1], &[8, 9, 7]),
        // 16: each array breaks one entry alone: a cell, a whole cell, a row, a column, the
        // grand total
        refuses_next(wide(), &[0, 0, 2, 2, 1, 0], SIX, 16),
        refuses_next(wide(), &[0, 0, 1, 3, 1, 0], SIX, 16),
        refuses_next(wide(), &[0, 0, 0, 2, 1, 1], SIX, 16),
        refuses_next(wide(), &[1, 0, 0, 2, 1, 0], SIX, 16),
        refuses_next(wide(), &[1, 0, 1, 2, 1, 1], SIX, 16),
        // counts of which only the low part is right
        refuses_next(half(), &[256], ONE, 16),
        refuses_next(large(), &[44, 66], TWO, 16),
        // one count too few, one too many, none
        refuses_next(wide(), &[0, 0, 1, 2, 1], SIX, 16),
        refuses_next(wide(), &[0, 0, 1, 2, 1, 0, 0], SIX, 16),
        refuses_next(half(), &[], ONE, 16),
        // 7: at an array that is not the last, and at the last
        refuses_next(wide(), &[0, 0, 1, 2, 1, 0], FIVE, 7),
        refuses_next(wide(), &[1, 1, 0, 2, 0, 1], FIVE, 7),
        refuses_next(whole(), &[0, 1, 2, 3], NONE, 7),
        // 16 and 7
        refuses_next(wide(), &[0, 0, 2, 2, 1, 0], FIVE, 16),
        refuses_next(wide(), &[0, 0, 1, 2, 1], FIVE, 16),
        // 1, 15, 2, 3 and 4, the array handed in a controlled rounding of the cells where there
        // is one
        refuses_next(table(0, 1, 1, &[]), &[], NONE, 1),
        refuses_next(table(1, 13, 1, &[0; 13]), &[0; 13], THIRTEEN, 1),
        refuses_next(table(257, 1, 1, &[0]), &[0], ONE, 1),
        refuses_next(table(5, 1, 1, &[0; 5]), &[0; 5], FIVE, 15),
        refuses_next(table(1, 5, 1, &[0; 5]), &[0; 5], FIVE, 15),
        refuses_next(table(1, 1, 0, &[0]), &[0], ONE, 2),
        refuses_next(table(2, 2, 1, &[0; 3]), &[0; 3], FOUR, 3),
        refuses_next(table(1, 1, 1, &[1001]), &[1001], ONE, 4),
        // 15 with each of 1, 2, 3, 4, 16 and 7
        refuses_next(table(0, 5, 1, &[]), &[], FIVE, 1),
        refuses_next(table(5, 1, 0, &[0; 5]), &[0; 5], FIVE, 15),
        refuses_next(table(1, 5, 1, &[0; 4]), &[0; 5], FIVE, 15),
        refuses_next(
            table(5, 1, 1, &[1001, 0, 0, 0, 0]),
            &[1001, 0, 0, 0, 0],
            FIVE,
            15,
        ),
        refuses_next(table(5, 1, 1, &[0; 5]), &[1, 0, 0, 0, 0], FIVE, 15),
        refuses_next(table(1, 5, 1, &[0; 5]), &[0; 5], FOUR, 15),
        // 2, 3 and 4 with 16 and 7
        refuses_next(table(1, 1, 0, &[0]), &[1], NONE, 2),
        refuses_next(table(2, 2, 1, &[0; 3]), &[0; 4], THREE, 3),
        refuses_next(table(1, 1, 1, &[1001]), &[0], NONE, 4),
    ]
}
