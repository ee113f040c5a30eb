//! Controlled roundings, and the call "rounding" (01, "The rounding" and "Turned back").

use super::stored::wide_table;
use super::{table, Call, FIVE, ONE, SIX};
use crate::GivenTable;

/// Two rows and three columns over 10.
pub const CELLS: [u32; 6] = [3, 4, 5, 20, 6, 7];

/// An array, and whether it is a controlled rounding of `CELLS`.
#[derive(Debug)]
pub struct Candidate {
    pub counts: &'static [u64],
    pub rounds: bool,
}

const fn candidate(counts: &'static [u64], rounds: bool) -> Candidate {
    Candidate { counts, rounds }
}

pub const CANDIDATES: &[Candidate] = &[
    candidate(&[0, 0, 1, 2, 1, 0], true),
    candidate(&[1, 1, 0, 2, 0, 1], true),
    // each of these breaks one entry alone: a cell, a whole cell, the first and the
    // second row, a whole column, another column, the grand total
    candidate(&[0, 0, 2, 2, 1, 0], false),
    candidate(&[0, 0, 1, 3, 1, 0], false),
    candidate(&[0, 0, 0, 2, 1, 1], false),
    candidate(&[0, 1, 1, 2, 0, 0], false),
    candidate(&[0, 0, 1, 2, 0, 1], false),
    candidate(&[1, 0, 0, 2, 1, 0], false),
    candidate(&[1, 0, 1, 2, 1, 1], false),
    // a count of which only the low part is right
    candidate(&[256, 0, 1, 2, 1, 0], false),
    candidate(&[0, 0, 1, 2, 1, 65_536], false),
    // one count too few, one too many
    candidate(&[0, 0, 1, 2, 1], false),
    candidate(&[0, 0, 1, 2, 1, 0, 0], false),
];

pub type Round = Call<GivenTable, u16>;

fn rounds(given: GivenTable, buffer: &[u16], result: &[u16]) -> Round {
    Call::returns(given, buffer, 0, result)
}

pub fn calls() -> Vec<Round> {
    vec![
        rounds(table(2, 3, 10, &CELLS), SIX, &[0, 0, 1, 2, 1, 0]),
        // what the buffer has beyond the array stays
        rounds(table(1, 2, 4, &[4, 6]), &[8, 8, 9, 7], &[1, 1, 9, 7]),
        rounds(
            table(1, 2, 4, &[4, 6]),
            &[8; 256],
            &[&[1, 1][..], &[8; 254]].concat(),
        ),
        // counts above 255
        rounds(wide_table(), SIX, &[300, 0, 66, 1, 1, 1]),
        // the largest denominator, cell and count
        rounds(table(1, 1, 65_535, &[65_535_000]), ONE, &[1000]),
        // rows, columns, denominators and cells of which only the low part is within the
        // bounds
        Call::refuses(table(257, 1, 1, &[0]), ONE, 1),
        Call::refuses(table(65_537, 1, 1, &[0]), ONE, 1),
        Call::refuses(table(1, 257, 1, &[0]), ONE, 1),
        Call::refuses(table(1, 65_537, 1, &[0]), ONE, 1),
        Call::refuses(table(1, 1, 65_537, &[0]), ONE, 2),
        Call::refuses(table(1, 1, 1, &[65_536]), ONE, 4),
        // 7 alone, and with each of 1, 2, 3 and 4
        Call::refuses(table(2, 3, 10, &CELLS), FIVE, 7),
        Call::refuses(table(2, 3, 10, &CELLS), &[], 7),
        Call::refuses(table(13, 1, 1, &[0; 13]), FIVE, 1),
        Call::refuses(table(2, 3, 0, &CELLS), FIVE, 2),
        Call::refuses(table(2, 3, 10, &[8; 5]), FIVE, 3),
        Call::refuses(table(2, 3, 1, &[1001, 0, 0, 0, 0, 0]), FIVE, 4),
    ]
}
