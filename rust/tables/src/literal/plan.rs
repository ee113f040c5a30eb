//! Limits, and the call "plan" (01, "The plan", "Stored plan, form 1" and "Turned back").

use super::stored::{wide_table, LARGEST, WIDE};
use super::{table, Call};
use crate::GivenTable;

/// An entry over the weight with its count, and its limit.
#[derive(Debug)]
pub struct Limit {
    pub weight: u64,
    pub entry: u64,
    pub count: u64,
    pub limit: u64,
}

const fn limit_is(weight: u64, entry: u64, count: u64, limit: u64) -> Limit {
    Limit {
        weight,
        entry,
        count,
        limit,
    }
}

pub const LIMITS: &[Limit] = &[
    // rounded down, rounded up, whole
    limit_is(10, 3, 0, 7),
    limit_is(10, 3, 1, 3),
    limit_is(10, 23, 2, 7),
    limit_is(10, 23, 3, 3),
    limit_is(10, 20, 2, 10),
    limit_is(10, 0, 0, 10),
    // entries above 2^32
    limit_is(10, 4_294_967_313, 429_496_731, 7),
    limit_is(10, 4_294_967_313, 429_496_732, 3),
    limit_is(65_535, 9_437_040_000, 144_000, 65_535),
];

/// Three by three over 10, with eight arrays: 260 bytes.
const LONG_CELLS: &[u32] = &[6, 9, 10, 6, 4, 5, 6, 6, 9];

/// Its plan.
#[rustfmt::skip]
const LONG: &[u8] = &[
    // form, r, c, K, zero
    1, 0, 3, 3, 8, 0, 0, 0,
    // D and the offset of the table
    10, 0, 0, 0, 80, 0, 0, 0,
    // weight and offset of each array
    1, 0, 0, 0, 116, 0, 0, 0,
    1, 0, 0, 0, 134, 0, 0, 0,
    1, 0, 0, 0, 152, 0, 0, 0,
    1, 0, 0, 0, 170, 0, 0, 0,
    1, 0, 0, 0, 188, 0, 0, 0,
    2, 0, 0, 0, 206, 0, 0, 0,
    2, 0, 0, 0, 224, 0, 0, 0,
    1, 0, 0, 0, 242, 0, 0, 0,
    // the table
    6, 0, 0, 0, 9, 0, 0, 0, 10, 0, 0, 0, 6, 0, 0, 0, 4, 0, 0, 0, 5, 0, 0, 0, 6, 0, 0, 0, 6, 0, 0, 0, 9, 0, 0, 0,
    // the arrays
    0, 0, 1, 0, 1, 0, 0, 0, 0, 0, 1, 0, 1, 0, 1, 0, 1, 0,
    0, 0, 1, 0, 1, 0, 0, 0, 1, 0, 1, 0, 1, 0, 0, 0, 1, 0,
    0, 0, 1, 0, 1, 0, 1, 0, 0, 0, 1, 0, 1, 0, 0, 0, 1, 0,
    0, 0, 1, 0, 1, 0, 1, 0, 0, 0, 1, 0, 1, 0, 1, 0, 0, 0,
    1, 0, 0, 0, 1, 0, 1, 0, 1, 0, 0, 0, 0, 0, 1, 0, 1, 0,
    1, 0, 1, 0, 1, 0, 0, 0, 1, 0, 0, 0, 1, 0, 0, 0, 1, 0,
    1, 0, 1, 0, 1, 0, 1, 0, 0, 0, 0, 0, 0, 0, 1, 0, 1, 0,
    1, 0, 1, 0, 1, 0, 1, 0, 0, 0, 1, 0, 0, 0, 1, 0, 1, 0,
];

pub type Planning = Call<GivenTable, u8>;

pub fn calls() -> Vec<Planning> {
    vec![
        // a buffer of just the length; one that is longer, whose rest stays; one byte
        // less: 7
        Call::returns(wide_table(), &[9; 180], 180, WIDE),
        Call::returns(wide_table(), &[9; 183], 180, &[WIDE, &[9, 9, 9]].concat()),
        Call::refuses(wide_table(), &[9; 179], 7),
        // a buffer of 256 bytes
        Call::returns(wide_table(), &[9; 256], 180, &[WIDE, &[9; 76]].concat()),
        // a plan of 260 bytes, a byte less, and 4 bytes
        Call::returns(table(3, 3, 10, LONG_CELLS), &[9; 260], 260, LONG),
        Call::refuses(table(3, 3, 10, LONG_CELLS), &[9; 259], 7),
        Call::refuses(table(3, 3, 10, LONG_CELLS), &[9; 4], 7),
        // the largest denominator and cell; a byte less: 7
        Call::returns(table(1, 1, 65_535, &[65_535_000]), &[9; 30], 30, LARGEST),
        Call::refuses(table(1, 1, 65_535, &[65_535_000]), &[9; 29], 7),
        // rows, columns, denominators and cells of which only the low part is within the
        // bounds
        Call::refuses(table(257, 1, 1, &[0]), &[9; 30], 1),
        Call::refuses(table(65_537, 1, 1, &[0]), &[9; 30], 1),
        Call::refuses(table(1, 257, 1, &[0]), &[9; 30], 1),
        Call::refuses(table(1, 65_537, 1, &[0]), &[9; 30], 1),
        Call::refuses(table(1, 1, 65_537, &[0]), &[9; 30], 2),
        Call::refuses(table(1, 1, 1, &[65_536]), &[9; 30], 4),
        // 7 with each of 1, 2, 3 and 4
        Call::refuses(table(13, 1, 1, &[0; 13]), &[], 1),
        Call::refuses(table(1, 1, 0, &[0]), &[9; 29], 2),
        Call::refuses(table(2, 3, 1, &[0; 5]), &[9; 29], 3),
        Call::refuses(table(1, 1, 1, &[1001]), &[9; 29], 4),
    ]
}
