//! The examples of 01 that carry proof ("Examples, P for proved").

use super::table;
use crate::papers::{self, Example, WeightedArrays};
use crate::GivenTable;

/// What an example says of a table.
#[derive(Clone, Debug, PartialEq, Eq)]
pub enum Said {
    /// Its plan: each array with its weight.
    Listing(WeightedArrays),
    /// The arrays that draw numbers 0, 1, .. belong to.
    Arrays(Vec<Vec<u64>>),
    /// The number that the table is answered with, 0 where it is taken.
    Number(u32),
}

#[derive(Debug)]
pub struct Row {
    pub table: GivenTable,
    pub said: Said,
}

fn listing(example: Example) -> Row {
    Row {
        table: example.table,
        said: Said::Listing(example.arrays),
    }
}

fn arrays(table: GivenTable, arrays: &[[u64; 4]]) -> Row {
    Row {
        table,
        said: Said::Arrays(arrays.iter().map(|counts| counts.to_vec()).collect()),
    }
}

fn number(table: GivenTable, number: u32) -> Row {
    Row {
        table,
        said: Said::Number(number),
    }
}

/// Draws 0 and 1, 2, 3 to 6, 7 to 9 of the listing.
const LISTING_ARRAYS: [[u64; 4]; 10] = [
    [0, 0, 0, 1],
    [0, 0, 0, 1],
    [0, 0, 1, 1],
    [0, 1, 1, 0],
    [0, 1, 1, 0],
    [0, 1, 1, 0],
    [0, 1, 1, 0],
    [1, 0, 0, 1],
    [1, 0, 0, 1],
    [1, 0, 0, 1],
];

pub fn rows() -> Vec<Row> {
    vec![
        listing(papers::listing()),
        arrays(papers::listing().table, &LISTING_ARRAYS),
        listing(papers::one_cell()),
        listing(papers::four_halves()),
        listing(papers::one_row()),
        // D 65,535; 0 and 65,536
        number(table(1, 1, 65_535, &[0]), 0),
        number(table(1, 1, 0, &[0]), 2),
        number(table(1, 1, 65_536, &[0]), 2),
        // r 12; 0 and 13
        number(table(12, 1, 1, &[0; 12]), 0),
        number(table(0, 1, 1, &[]), 1),
        number(table(13, 1, 1, &[0; 13]), 1),
    ]
}
