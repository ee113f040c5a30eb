//! The call that rounds corrections (02, F-7), with the refusals 1, 2, 3, 4 and 7 of 01; a
//! cell below -1000 times the denominator is 4 too.

use super::round::CELLS;
use super::stored::wide_table;
use super::{table, Call};
use crate::GivenCorrections;

/// An entry over 10, rounded down and up, and which of the counts -3 to 1 round it: a whole
/// entry stays.
#[derive(Debug)]
pub struct Rounded {
    pub entry: i64,
    pub low: i64,
    pub high: i64,
    pub counts: [bool; 5],
}

const fn rounded(entry: i64, low: i64, high: i64, counts: [bool; 5]) -> Rounded {
    Rounded {
        entry,
        low,
        high,
        counts,
    }
}

pub const ROUNDED: &[Rounded] = &[
    rounded(1, 0, 1, [false, false, false, true, true]),
    rounded(0, 0, 0, [false, false, false, true, false]),
    rounded(-1, -1, 0, [false, false, true, true, false]),
    rounded(-9, -1, 0, [false, false, true, true, false]),
    rounded(-10, -1, -1, [false, false, true, false, false]),
    rounded(-11, -2, -1, [false, true, true, false, false]),
    rounded(-20, -2, -2, [false, true, false, false, false]),
];

/// Two rows and three columns over 10, with a whole cell below 0 and a whole column.
pub const SHEET: [i64; 6] = [-3, 4, -5, -20, 6, -7];

/// An array, and whether it is a controlled rounding of `SHEET`.
#[derive(Debug)]
pub struct Candidate {
    pub counts: &'static [i64],
    pub rounds: bool,
}

const fn candidate(counts: &'static [i64], rounds: bool) -> Candidate {
    Candidate { counts, rounds }
}

pub const CANDIDATES: &[Candidate] = &[
    candidate(&[-1, 0, 0, -2, 1, -1], true),
    candidate(&[0, 1, -1, -2, 0, 0], true),
    // each of these breaks one entry alone: a cell, a whole cell by one less and by one more,
    // the first and the second row, a whole column, another column, the grand total
    candidate(&[0, 1, -2, -2, 0, 0], false),
    candidate(&[0, 0, -1, -3, 1, 0], false),
    candidate(&[-1, 1, -1, -1, 0, -1], false),
    candidate(&[0, 1, 0, -2, 0, -1], false),
    candidate(&[0, 0, -1, -2, 1, 0], false),
    candidate(&[-1, 1, -1, -2, 1, -1], false),
    candidate(&[-1, 1, 0, -2, 0, 0], false),
    candidate(&[-1, 1, -1, -2, 0, -1], false),
    // one count too few, one too many
    candidate(&[-1, 0, 0, -2, 1], false),
    candidate(&[-1, 0, 0, -2, 1, -1, 0], false),
];

pub type RoundSigned = Call<GivenCorrections, i16>;

/// Buffers that are lent for the counts, by their number.
const SIX: &[i16] = &[8; 6];
const FIVE: &[i16] = &[8; 5];
const FOUR: &[i16] = &[8; 4];
const TWO: &[i16] = &[8; 2];
const ONE: &[i16] = &[8];

/// Two rows and three columns over 10, with cells on both sides of 0.
const MIXED: &[i32] = &[-3, 4, -5, 20, -6, 7];

fn rounds(given: GivenCorrections, buffer: &[i16], result: &[i16]) -> RoundSigned {
    Call::returns(given, buffer, 0, result)
}

fn refuses(given: GivenCorrections, buffer: &[i16], number: u32) -> RoundSigned {
    Call::refuses(given, buffer, number)
}

pub fn calls() -> Vec<RoundSigned> {
    let signed = |cell: u32| cell as i32;
    vec![
        // a half below 0 lies between -1 and 0
        rounds(table(1, 1, 2, &[-1]), ONE, &[-1]),
        // cells on both sides of 0, and all below
        rounds(table(2, 3, 10, MIXED), SIX, &[-1, 0, 0, 2, -1, 1]),
        rounds(table(2, 2, 10, &[-3, -4, -5, -6]), FOUR, &[-1, 0, 0, -1]),
        // whole entries below 0 stay: a cell, which gets no lower and no higher, a row total, a
        // column total, the grand total
        rounds(table(2, 2, 4, &[-4, -2, -2, 0]), FOUR, &[-1, -1, 0, 0]),
        rounds(
            table(2, 3, 4, &[-1, -1, -4, 0, 0, -3]),
            SIX,
            &[-1, 0, -1, 0, 0, -1],
        ),
        rounds(table(2, 2, 4, &[-2, -2, -1, 0]), FOUR, &[-1, 0, 0, 0]),
        rounds(table(2, 2, 4, &[-2, -1, -2, 0]), FOUR, &[-1, 0, 0, 0]),
        rounds(table(2, 2, 2, &[-1, 0, 0, -1]), FOUR, &[-1, 0, 0, 0]),
        // a row total of 0 from cells on both sides of it stays, and a column total
        rounds(table(2, 2, 2, &[-1, 1, 0, 1]), FOUR, &[-1, 1, 0, 0]),
        rounds(table(2, 2, 2, &[-1, 0, 1, 1]), FOUR, &[-1, 0, 1, 0]),
        // what the buffer has beyond the array stays
        rounds(table(1, 2, 4, &[-4, -6]), &[8, 8, 9, -7], &[-1, -2, 9, -7]),
        rounds(
            table(1, 2, 4, &[-4, -6]),
            &[8; 256],
            &[&[-1, -2][..], &[8; 254]].concat(),
        ),
        // counts below -255
        rounds(
            wide_table().map(|cell| -signed(cell)),
            SIX,
            &[-301, -1, -65, -1, 0, -1],
        ),
        // without a cell below 0, as the call "rounding" does
        rounds(
            table(2, 3, 10, &CELLS.map(signed)),
            SIX,
            &[0, 0, 1, 2, 1, 0],
        ),
        rounds(wide_table().map(signed), SIX, &[300, 0, 66, 1, 1, 1]),
        // the bounds, and one within each
        rounds(
            table(1, 2, 65_535, &[-65_535_000, 65_535_000]),
            TWO,
            &[-1000, 1000],
        ),
        rounds(table(1, 1, 65_535, &[-65_534_999]), ONE, &[-1000]),
        rounds(table(1, 1, 65_535, &[65_534_999]), ONE, &[999]),
        // a grand total below -2^31; only here, since the search of the definition goes too far
        rounds(
            table(6, 6, 65_535, &[-65_535_000; 36]),
            &[8; 36],
            &[-1000; 36],
        ),
        // 4: one beyond either, the least and the largest number, and beside a bound
        refuses(table(1, 1, 65_535, &[-65_535_001]), ONE, 4),
        refuses(table(1, 1, 65_535, &[65_535_001]), ONE, 4),
        refuses(table(1, 1, 65_535, &[i32::MIN]), ONE, 4),
        refuses(table(1, 1, 65_535, &[i32::MAX]), ONE, 4),
        refuses(table(1, 2, 7, &[-7000, -7001]), TWO, 4),
        refuses(table(1, 2, 7, &[7001, 7000]), TWO, 4),
        // cells of which only the third or the fourth byte is not that of a cell within the
        // bounds
        refuses(table(1, 1, 1, &[65_536]), ONE, 4),
        refuses(table(1, 1, 1, &[-65_536]), ONE, 4),
        refuses(table(1, 1, 1, &[16_777_216]), ONE, 4),
        refuses(table(1, 1, 1, &[-16_777_216]), ONE, 4),
        // 1: rows, columns
        refuses(table(0, 1, 1, &[]), ONE, 1),
        refuses(table(13, 1, 1, &[-1; 13]), &[8; 13], 1),
        refuses(table(1, 0, 1, &[]), ONE, 1),
        refuses(table(1, 13, 1, &[-1; 13]), &[8; 13], 1),
        refuses(table(257, 1, 1, &[0]), ONE, 1),
        refuses(table(65_537, 1, 1, &[0]), ONE, 1),
        refuses(table(1, 257, 1, &[0]), ONE, 1),
        refuses(table(1, 65_537, 1, &[0]), ONE, 1),
        // 2: the denominator
        refuses(table(1, 1, 0, &[0]), ONE, 2),
        refuses(table(1, 1, 65_536, &[-1]), ONE, 2),
        refuses(table(1, 1, 65_537, &[-1]), ONE, 2),
        refuses(table(1, 1, 16_777_217, &[-1]), ONE, 2),
        // 3: one cell too few, one too many, 256 too many
        refuses(table(2, 3, 1, &[-1; 5]), SIX, 3),
        refuses(table(2, 3, 1, &[-1; 7]), SIX, 3),
        refuses(table(2, 3, 1, &[-1; 262]), SIX, 3),
        // two at once: 1 and 2, 1 and 3, 1 and 4, 2 and 3, 2 and 4, 3 and 4
        refuses(table(13, 1, 0, &[0; 13]), &[8; 13], 1),
        refuses(table(1, 13, 1, &[0]), &[8; 13], 1),
        refuses(table(1, 13, 1, &[-1001; 13]), &[8; 13], 1),
        refuses(table(2, 3, 65_536, &[0; 5]), SIX, 2),
        refuses(table(1, 1, 0, &[-1]), ONE, 2),
        refuses(table(2, 3, 1, &[-1001, 0, 0, 0, 0]), SIX, 3),
        // 7 alone, and with each of 1, 2, 3 and 4
        refuses(table(2, 3, 10, MIXED), FIVE, 7),
        refuses(table(2, 3, 10, MIXED), &[], 7),
        refuses(table(13, 1, 1, &[0; 13]), FIVE, 1),
        refuses(table(2, 3, 0, MIXED), FIVE, 2),
        refuses(table(2, 3, 10, &[-8; 5]), FIVE, 3),
        refuses(table(2, 3, 1, &[-1001, 0, 0, 0, 0, 0]), FIVE, 4),
        refuses(table(2, 3, 1, &[0, 0, 0, 0, 0, 1001]), FIVE, 4),
    ]
}
