//! The call "reason" (02, F-6), with the refusals 1, 2, 3, 4 and 7 of 01; its own, 14, is
//! tested before 7.

use super::{table, Call};
use crate::GivenTable;

/// A table, and the number of the array that is asked about.
#[derive(Debug)]
pub struct Asked {
    pub table: GivenTable,
    pub array: u32,
}

pub type Reason = Call<Asked, u32>;

/// A buffer that has just room.
const ROOM: &[u32] = &[8; 4];

fn asked(rows: u32, columns: u32, denominator: u32, cells: &[u32], array: u32) -> Asked {
    Asked {
        table: table(rows, columns, denominator, cells),
        array,
    }
}

fn tells(asked: Asked, result: &[u32]) -> Reason {
    Call::returns(asked, ROOM, 0, result)
}

pub fn calls() -> Vec<Reason> {
    // two by two over 10, with arrays of the weights 2, 1, 4 and 3
    let small = |array| asked(2, 2, 10, &[3, 4, 5, 6], array);
    vec![
        // a plan of four arrays: the total of column 1, which comes before the grand total;
        // the total of row 1, before that of row 2; the first cell, before the other three;
        // and all whole
        tells(small(1), &[3, 0, 1, 1]),
        tells(small(2), &[2, 1, 0, 1]),
        tells(small(3), &[1, 1, 1, 1]),
        tells(small(4), &[1, 1, 1, 0]),
        // the cell in row 1 and column 2 before that in row 2 and column 1
        tells(
            asked(3, 3, 2, &[0, 1, 1, 1, 0, 1, 1, 1, 0], 1),
            &[1, 1, 2, 1],
        ),
        // the total of row 2 before that of column 1 and the grand total
        tells(asked(2, 2, 3, &[1, 2, 1, 4], 1), &[2, 2, 0, 1]),
        // the grand total alone
        tells(asked(2, 2, 3, &[4, 0, 0, 4], 1), &[4, 0, 0, 1]),
        // rounded up: a cell, a row total, a column total, the grand total
        tells(asked(1, 3, 3, &[4, 4, 1], 1), &[1, 1, 3, 2]),
        tells(asked(2, 3, 4, &[2, 5, 6, 6, 3, 0], 1), &[2, 2, 0, 2]),
        tells(asked(2, 3, 4, &[0, 5, 3, 2, 5, 6], 1), &[3, 0, 3, 2]),
        tells(
            asked(3, 4, 4, &[2, 2, 2, 2, 0, 2, 0, 0, 3, 0, 0, 0], 1),
            &[4, 0, 0, 2],
        ),
        // a table whose entries are all whole has one array
        tells(asked(1, 1, 5, &[10], 1), &[1, 1, 1, 0]),
        Call::refuses(asked(1, 1, 5, &[10], 2), ROOM, 14),
        // a longer buffer, whose rest stays, and one of three numbers: 7
        Call::returns(small(1), &[8, 8, 8, 8, 9], 0, &[3, 0, 1, 1, 9]),
        Call::refuses(small(1), &[8; 3], 7),
        // a buffer of 256 numbers
        Call::returns(
            asked(1, 1, 5, &[10], 1),
            &[8; 256],
            0,
            &[&[1, 1, 1, 0][..], &[8; 252]].concat(),
        ),
        // 14: array 0, one above the last, and the largest number
        Call::refuses(small(0), ROOM, 14),
        Call::refuses(small(5), ROOM, 14),
        Call::refuses(small(4_294_967_295), ROOM, 14),
        // numbers of which only the low part is a number of an array
        Call::refuses(small(257), ROOM, 14),
        Call::refuses(small(65_537), ROOM, 14),
        Call::refuses(small(16_777_217), ROOM, 14),
        Call::refuses(small(2_147_483_649), ROOM, 14),
        // with 7
        Call::refuses(small(5), &[8; 3], 14),
        // 1, 2, 3 and 4, each with 14 and 7
        Call::refuses(asked(13, 1, 1, &[0; 13], 0), &[], 1),
        Call::refuses(asked(1, 1, 0, &[0], 0), &[], 2),
        Call::refuses(asked(2, 3, 1, &[0; 5], 0), &[], 3),
        Call::refuses(asked(1, 1, 1, &[1001], 0), &[], 4),
        // and with 7 alone
        Call::refuses(asked(1, 1, 1, &[1001], 1), &[], 4),
        // rows, columns, denominators and cells of which only the low part is within the
        // bounds
        Call::refuses(asked(257, 1, 1, &[0], 1), ROOM, 1),
        Call::refuses(asked(65_537, 1, 1, &[0], 1), ROOM, 1),
        Call::refuses(asked(1, 257, 1, &[0], 1), ROOM, 1),
        Call::refuses(asked(1, 65_537, 1, &[0], 1), ROOM, 1),
        Call::refuses(asked(1, 1, 65_537, &[0], 1), ROOM, 2),
        Call::refuses(asked(1, 1, 1, &[65_536], 1), ROOM, 4),
    ]
}
