//! A table's check, and the rounding of one entry (01, "From table to campaign", "The
//! rounding" and "Turned back").

use super::table;
use crate::GivenTable;

/// A table, and the number that its check gives, 0 for an accepted one.
#[derive(Debug)]
pub struct Case {
    pub table: GivenTable,
    pub number: u32,
}

fn gives(rows: u32, columns: u32, denominator: u32, cells: &[u32], number: u32) -> Case {
    Case {
        table: table(rows, columns, denominator, cells),
        number,
    }
}

pub fn cases() -> Vec<Case> {
    vec![
        gives(2, 3, 10, &[0, 1, 2, 3, 4, 5], 0),
        // 1: rows, columns
        gives(12, 1, 1, &[0; 12], 0),
        gives(0, 1, 1, &[], 1),
        gives(13, 1, 1, &[0; 13], 1),
        gives(1, 12, 1, &[0; 12], 0),
        gives(1, 0, 1, &[], 1),
        gives(1, 13, 1, &[0; 13], 1),
        // 12 of each, and rows and columns of which only the low part is within the bound
        gives(12, 12, 1, &[0; 144], 0),
        gives(257, 1, 1, &[0], 1),
        gives(65_537, 1, 1, &[0], 1),
        gives(16_777_217, 1, 1, &[0], 1),
        gives(2_147_483_649, 1, 1, &[0], 1),
        gives(1, 257, 1, &[0], 1),
        gives(1, 65_537, 1, &[0], 1),
        gives(1, 16_777_217, 1, &[0], 1),
        gives(1, 2_147_483_649, 1, &[0], 1),
        // 2: the denominator
        gives(1, 1, 65_535, &[0], 0),
        gives(1, 1, 0, &[0], 2),
        gives(1, 1, 65_536, &[0], 2),
        gives(1, 1, 65_537, &[0], 2),
        gives(1, 1, 131_071, &[0], 2),
        gives(1, 1, 16_777_217, &[0], 2),
        gives(1, 1, 2_147_483_649, &[0], 2),
        gives(1, 1, 4_294_967_295, &[0], 2),
        // 3: one cell too few, one too many, 256 too many
        gives(2, 3, 1, &[0; 5], 3),
        gives(2, 3, 1, &[0; 7], 3),
        gives(2, 3, 1, &[0; 262], 3),
        // 4: a cell of 1000·D and of one more
        gives(1, 1, 65_535, &[65_535_000], 0),
        gives(1, 1, 65_535, &[65_535_001], 4),
        gives(1, 2, 7, &[7000, 7001], 4),
        gives(1, 2, 7, &[7001, 7000], 4),
        gives(1, 3, 7, &[0, 7001, 0], 4),
        // cells of which only the second, the third or the fourth byte is not 0
        gives(1, 1, 1, &[1024], 4),
        gives(1, 1, 1, &[65_536], 4),
        gives(1, 1, 1, &[16_777_216], 4),
        // a cell below zero, handed over as its bits: -1, -1000·D and the least of 32 bits
        gives(1, 1, 65_535, &[-1_i32 as u32], 4),
        gives(1, 1, 65_535, &[-65_535_000_i32 as u32], 4),
        gives(1, 2, 1, &[0, i32::MIN as u32], 4),
        // two at once: 1 and 2, 1 and 3, 1 and 4, 2 and 3, 2 and 4, 3 and 4
        gives(13, 1, 0, &[0; 13], 1),
        gives(1, 13, 1, &[0], 1),
        gives(1, 13, 1, &[1001, 0, 0, 0, 0, 0, 0, 0, 0, 0, 0, 0, 0], 1),
        gives(2, 3, 65_536, &[0; 5], 2),
        gives(1, 1, 0, &[1], 2),
        gives(2, 3, 1, &[1001, 0, 0, 0, 0], 3),
    ]
}

/// An entry over 10, rounded down and up, and which of the counts 0 to 4 round it: a
/// whole entry stays.
#[derive(Debug)]
pub struct Rounded {
    pub entry: u64,
    pub low: u64,
    pub high: u64,
    pub counts: [bool; 5],
}

pub const ROUNDED: &[Rounded] = &[
    Rounded {
        entry: 0,
        low: 0,
        high: 0,
        counts: [true, false, false, false, false],
    },
    Rounded {
        entry: 19,
        low: 1,
        high: 2,
        counts: [false, true, true, false, false],
    },
    Rounded {
        entry: 20,
        low: 2,
        high: 2,
        counts: [false, false, true, false, false],
    },
    Rounded {
        entry: 21,
        low: 2,
        high: 3,
        counts: [false, false, true, true, false],
    },
    // above 2^32: 19 more
    Rounded {
        entry: 4_294_967_315,
        low: 429_496_731,
        high: 429_496_732,
        counts: [false; 5],
    },
];
