//! Stored plans, byte by byte from the layout that 01 gives ("Stored plan, form 1"), and
//! what they hold. No function builds them.

use super::table;
use crate::papers::{self, Example};
use crate::GivenTable;

/// 01's third example: two by two, D 2, all cells 1.
#[rustfmt::skip]
pub const SQUARE: &[u8] = &[
    // form, r, c, K, zero
    1, 0, 2, 2, 2, 0, 0, 0,
    // D and the offset of the table
    2, 0, 0, 0, 32, 0, 0, 0,
    // weight and offset of each array
    1, 0, 0, 0, 48, 0, 0, 0,
    1, 0, 0, 0, 56, 0, 0, 0,
    // the table
    1, 0, 0, 0, 1, 0, 0, 0, 1, 0, 0, 0, 1, 0, 0, 0,
    // the arrays
    0, 0, 1, 0, 1, 0, 0, 0,
    1, 0, 0, 0, 0, 0, 1, 0,
];

/// Two rows, three columns and D 1000: cells, weights and counts above 255, cells above
/// 65,535. Planning the table gives just these bytes.
#[rustfmt::skip]
pub const WIDE: &[u8] = &[
    // form, r, c, K, zero
    1, 0, 2, 3, 7, 0, 0, 0,
    // D and the offset of the table
    232, 3, 0, 0, 72, 0, 0, 0,
    // weight and offset of each array
    100, 0, 0, 0, 96, 0, 0, 0,
    238, 1, 0, 0, 108, 0, 0, 0,
    1, 0, 0, 0, 120, 0, 0, 0,
    5, 0, 0, 0, 132, 0, 0, 0,
    176, 0, 0, 0, 144, 0, 0, 0,
    160, 0, 0, 0, 156, 0, 0, 0,
    64, 0, 0, 0, 168, 0, 0, 0,
    // the table
    112, 149, 4, 0, 70, 0, 0, 0, 144, 1, 1, 0, 220, 5, 0, 0, 4, 1, 0, 0, 231, 3, 0, 0,
    // the arrays
    44, 1, 0, 0, 66, 0, 1, 0, 1, 0, 1, 0,
    44, 1, 0, 0, 66, 0, 2, 0, 0, 0, 1, 0,
    44, 1, 1, 0, 66, 0, 2, 0, 0, 0, 0, 0,
    44, 1, 1, 0, 66, 0, 2, 0, 0, 0, 1, 0,
    45, 1, 0, 0, 66, 0, 1, 0, 0, 0, 1, 0,
    45, 1, 0, 0, 66, 0, 1, 0, 1, 0, 1, 0,
    45, 1, 1, 0, 65, 0, 1, 0, 0, 0, 1, 0,
];

/// The same table: the second array stands seven times, and offsets go above 255.
#[rustfmt::skip]
pub const RECURRING: &[u8] = &[
    // form, r, c, K, zero
    1, 0, 2, 3, 13, 0, 0, 0,
    // D and the offset of the table
    232, 3, 0, 0, 120, 0, 0, 0,
    // weight and offset of each array
    100, 0, 0, 0, 144, 0, 0, 0,
    44, 1, 0, 0, 156, 0, 0, 0,
    100, 0, 0, 0, 168, 0, 0, 0,
    50, 0, 0, 0, 180, 0, 0, 0,
    20, 0, 0, 0, 192, 0, 0, 0,
    10, 0, 0, 0, 204, 0, 0, 0,
    10, 0, 0, 0, 216, 0, 0, 0,
    4, 0, 0, 0, 228, 0, 0, 0,
    1, 0, 0, 0, 240, 0, 0, 0,
    5, 0, 0, 0, 252, 0, 0, 0,
    176, 0, 0, 0, 8, 1, 0, 0,
    160, 0, 0, 0, 20, 1, 0, 0,
    64, 0, 0, 0, 32, 1, 0, 0,
    // the table
    112, 149, 4, 0, 70, 0, 0, 0, 144, 1, 1, 0, 220, 5, 0, 0, 4, 1, 0, 0, 231, 3, 0, 0,
    // the arrays
    44, 1, 0, 0, 66, 0, 1, 0, 1, 0, 1, 0,
    44, 1, 0, 0, 66, 0, 2, 0, 0, 0, 1, 0,
    44, 1, 0, 0, 66, 0, 2, 0, 0, 0, 1, 0,
    44, 1, 0, 0, 66, 0, 2, 0, 0, 0, 1, 0,
    44, 1, 0, 0, 66, 0, 2, 0, 0, 0, 1, 0,
    44, 1, 0, 0, 66, 0, 2, 0, 0, 0, 1, 0,
    44, 1, 0, 0, 66, 0, 2, 0, 0, 0, 1, 0,
    44, 1, 0, 0, 66, 0, 2, 0, 0, 0, 1, 0,
    44, 1, 1, 0, 66, 0, 2, 0, 0, 0, 0, 0,
    44, 1, 1, 0, 66, 0, 2, 0, 0, 0, 1, 0,
    45, 1, 0, 0, 66, 0, 1, 0, 0, 0, 1, 0,
    45, 1, 0, 0, 66, 0, 1, 0, 1, 0, 1, 0,
    45, 1, 1, 0, 65, 0, 1, 0, 0, 0, 1, 0,
];

/// One cell, the shortest plan: D, the weight, the cell and the count are the largest that
/// there are, and the cell takes four bytes.
#[rustfmt::skip]
pub const LARGEST: &[u8] = &[
    // form, r, c, K, zero
    1, 0, 1, 1, 1, 0, 0, 0,
    // D and the offset of the table
    255, 255, 0, 0, 24, 0, 0, 0,
    // weight and offset of the array
    255, 255, 0, 0, 28, 0, 0, 0,
    // the table and the array
    24, 252, 231, 3,
    232, 3,
];

/// The table of `WIDE` and `RECURRING`.
pub fn wide_table() -> GivenTable {
    table(2, 3, 1000, &[300_400, 70, 65_936, 1500, 260, 999])
}

/// A stored plan with these bytes, each at its place, changed.
pub fn changed(plan: &[u8], changes: &[(usize, u8)]) -> Vec<u8> {
    let mut bytes = plan.to_vec();
    for &(place, byte) in changes {
        bytes[place] = byte;
    }
    bytes
}

/// A stored plan with a byte more.
pub fn longer(plan: &[u8]) -> Vec<u8> {
    [plan, &[0]].concat()
}

/// Bytes, and the plan that they hold.
#[derive(Debug)]
pub struct Stored {
    pub bytes: &'static [u8],
    pub plan: Example,
}

pub fn stored() -> Vec<Stored> {
    vec![
        Stored {
            bytes: SQUARE,
            plan: papers::four_halves(),
        },
        Stored {
            bytes: WIDE,
            plan: Example::new(
                wide_table(),
                &[
                    (100, [300, 0, 66, 1, 1, 1]),
                    (494, [300, 0, 66, 2, 0, 1]),
                    (1, [300, 1, 66, 2, 0, 0]),
                    (5, [300, 1, 66, 2, 0, 1]),
                    (176, [301, 0, 66, 1, 0, 1]),
                    (160, [301, 0, 66, 1, 1, 1]),
                    (64, [301, 1, 65, 1, 0, 1]),
                ],
            ),
        },
        Stored {
            bytes: RECURRING,
            plan: Example::new(
                wide_table(),
                &[
                    (100, [300, 0, 66, 1, 1, 1]),
                    (300, [300, 0, 66, 2, 0, 1]),
                    (100, [300, 0, 66, 2, 0, 1]),
                    (50, [300, 0, 66, 2, 0, 1]),
                    (20, [300, 0, 66, 2, 0, 1]),
                    (10, [300, 0, 66, 2, 0, 1]),
                    (10, [300, 0, 66, 2, 0, 1]),
                    (4, [300, 0, 66, 2, 0, 1]),
                    (1, [300, 1, 66, 2, 0, 0]),
                    (5, [300, 1, 66, 2, 0, 1]),
                    (176, [301, 0, 66, 1, 0, 1]),
                    (160, [301, 0, 66, 1, 1, 1]),
                    (64, [301, 1, 65, 1, 0, 1]),
                ],
            ),
        },
        Stored {
            bytes: LARGEST,
            plan: Example::new(table(1, 1, 65_535, &[65_535_000]), &[(65_535, [1000])]),
        },
    ]
}
