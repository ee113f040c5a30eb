//! The call "pool" (02, F-1), with the refusals 1, 2, 3, 4 and 7 of 01; two of its own, 11
//! and 12, are tested before 7.

use crate::{GivenPair, GivenPart};

/// The tables that are given and the buffers that are lent; the number that is returned,
/// and the buffers as they are left.
#[derive(Debug)]
pub struct Pool {
    pub given: GivenPair,
    pub lent: Buffers,
    pub number: u32,
    pub left: Buffers,
}

/// The buffers for the pooled denominator and the pooled cells.
#[derive(Clone, Debug, PartialEq, Eq)]
pub struct Buffers {
    pub denominator: Vec<u32>,
    pub cells: Vec<u32>,
}

fn buffers(denominator: &[u32], cells: &[u32]) -> Buffers {
    Buffers {
        denominator: denominator.to_vec(),
        cells: cells.to_vec(),
    }
}

/// Buffers of 8s, just as long as a pooled table of this size.
fn eights(rows: u32, columns: u32) -> Buffers {
    buffers(&[8], &vec![8; (rows * columns) as usize])
}

/// A denominator with its cells.
type Part<'a> = (u32, &'a [u32]);

fn given(rows: u32, columns: u32, first: Part, second: Part) -> GivenPair {
    let part = |(denominator, cells): Part| GivenPart {
        denominator,
        cells: cells.to_vec(),
    };
    GivenPair {
        rows,
        columns,
        first: part(first),
        second: part(second),
    }
}

/// A call that gives this pooled table.
fn gives(rows: u32, columns: u32, first: Part, second: Part, pooled: Part) -> Pool {
    let (denominator, cells) = pooled;
    Pool {
        given: given(rows, columns, first, second),
        lent: eights(rows, columns),
        number: 0,
        left: buffers(&[denominator], cells),
    }
}

/// A call that is refused by this number.
fn refuses(rows: u32, columns: u32, first: Part, second: Part, number: u32) -> Pool {
    let lent = eights(rows, columns);
    refuses_with(rows, columns, first, second, lent, number)
}

/// The same with other buffers, which it leaves as they were.
fn refuses_with(
    rows: u32,
    columns: u32,
    first: Part,
    second: Part,
    lent: Buffers,
    number: u32,
) -> Pool {
    Pool {
        given: given(rows, columns, first, second),
        lent: lent.clone(),
        number,
        left: lent,
    }
}

pub fn calls() -> Vec<Pool> {
    vec![
        gives(1, 2, (10, &[3, 4]), (4, &[1, 2]), (20, &[11, 18])),
        // what the buffers have beyond the result stays; coprime denominators
        Pool {
            given: given(2, 3, (7, &[1, 2, 3, 4, 5, 6]), (5, &[6, 5, 4, 3, 2, 1])),
            lent: buffers(&[8, 9], &[8, 8, 8, 8, 8, 8, 9]),
            number: 0,
            left: buffers(&[35, 9], &[47, 45, 43, 41, 39, 37, 9]),
        },
        // equal denominators; one divides the other
        gives(
            2,
            2,
            (10, &[3, 4, 5, 6]),
            (10, &[1, 0, 0, 2]),
            (10, &[4, 4, 5, 8]),
        ),
        gives(1, 1, (3, &[2]), (12, &[5]), (12, &[13])),
        gives(1, 1, (12, &[5]), (3, &[2]), (12, &[13])),
        // 11: the multiple at its bound and just above
        gives(1, 1, (255, &[1]), (257, &[2]), (65_535, &[767])),
        refuses(1, 1, (2, &[1]), (32_769, &[1]), 11),
        // 12: a pooled cell at its bound and one more; the largest
        gives(1, 1, (10, &[9000]), (4, &[400]), (20, &[20_000])),
        refuses(1, 1, (10, &[8998]), (4, &[401]), 12),
        gives(
            1,
            1,
            (65_535, &[65_535_000]),
            (1, &[0]),
            (65_535, &[65_535_000]),
        ),
        // 12: twice the largest; of two pooled cells the second alone, the first alone
        refuses(1, 1, (65_535, &[65_535_000]), (1, &[1000]), 12),
        refuses(1, 2, (1, &[0, 600]), (1, &[0, 600]), 12),
        refuses(1, 2, (1, &[600, 0]), (1, &[600, 0]), 12),
        // buffers of 256 numbers
        Pool {
            given: given(1, 2, (10, &[3, 4]), (4, &[1, 2])),
            lent: buffers(&[8; 256], &[8; 256]),
            number: 0,
            left: buffers(
                &[&[20][..], &[8; 255]].concat(),
                &[&[11, 18][..], &[8; 254]].concat(),
            ),
        },
        // 7: either buffer
        refuses_with(1, 2, (10, &[3, 4]), (4, &[1, 2]), buffers(&[], &[8, 8]), 7),
        refuses_with(1, 2, (10, &[3, 4]), (4, &[1, 2]), buffers(&[8], &[8]), 7),
        // 1: rows, columns
        refuses(13, 1, (1, &[0; 13]), (1, &[0; 13]), 1),
        refuses(1, 0, (1, &[]), (1, &[]), 1),
        // rows and columns of which only the low part is within the bounds
        refuses_with(257, 1, (1, &[0]), (1, &[0]), eights(1, 1), 1),
        refuses_with(65_537, 1, (1, &[0]), (1, &[0]), eights(1, 1), 1),
        refuses_with(1, 257, (1, &[0]), (1, &[0]), eights(1, 1), 1),
        refuses_with(1, 65_537, (1, &[0]), (1, &[0]), eights(1, 1), 1),
        // 2: the denominator of either part
        refuses(1, 1, (0, &[0]), (1, &[0]), 2),
        refuses(1, 1, (1, &[0]), (0, &[0]), 2),
        refuses(1, 1, (65_536, &[0]), (1, &[0]), 2),
        refuses(1, 1, (1, &[0]), (65_536, &[0]), 2),
        refuses(1, 1, (65_537, &[0]), (1, &[0]), 2),
        refuses(1, 1, (1, &[0]), (65_537, &[0]), 2),
        refuses(1, 1, (131_071, &[0]), (1, &[0]), 2),
        refuses(1, 1, (1, &[0]), (131_071, &[0]), 2),
        // 3: one cell too few, one too many
        refuses(1, 2, (1, &[0]), (1, &[0, 0]), 3),
        refuses(1, 2, (1, &[0, 0]), (1, &[0, 0, 0]), 3),
        refuses(1, 2, (1, &[0; 258]), (1, &[0, 0]), 3),
        refuses(1, 2, (1, &[0, 0]), (1, &[0; 258]), 3),
        // 4: a cell of 1000·D, and of one more in either part
        gives(1, 1, (7, &[7000]), (1, &[0]), (7, &[7000])),
        refuses(1, 1, (7, &[7001]), (1, &[0]), 4),
        refuses(1, 1, (1, &[0]), (7, &[7001]), 4),
        refuses(1, 1, (1, &[65_536]), (1, &[0]), 4),
        refuses(1, 1, (1, &[0]), (1, &[65_536]), 4),
        refuses(1, 1, (1, &[16_777_216]), (1, &[0]), 4),
        refuses(1, 1, (1, &[0]), (1, &[16_777_216]), 4),
        refuses(1, 2, (1, &[0, 1001]), (1, &[0, 0]), 4),
        refuses(1, 2, (1, &[0, 0]), (1, &[0, 1001]), 4),
        // two at once: 1 and 2, 3, 4, 11, 12, 7
        refuses(13, 1, (1, &[0; 13]), (0, &[0; 13]), 1),
        refuses(1, 13, (1, &[0]), (1, &[0]), 1),
        refuses(
            1,
            13,
            (1, &[1001, 0, 0, 0, 0, 0, 0, 0, 0, 0, 0, 0, 0]),
            (1, &[0; 13]),
            1,
        ),
        refuses(13, 1, (2, &[0; 13]), (32_769, &[0; 13]), 1),
        refuses(13, 1, (1, &[600; 13]), (1, &[600; 13]), 1),
        refuses_with(13, 1, (1, &[0; 13]), (1, &[0; 13]), buffers(&[], &[]), 1),
        // 2 and 3, 4, 11, 12, 7
        refuses(1, 2, (1, &[0]), (0, &[0, 0]), 2),
        refuses(1, 1, (1, &[1001]), (0, &[0]), 2),
        refuses(1, 1, (2, &[1]), (65_537, &[1]), 2),
        refuses(1, 1, (65_536, &[40_000_000]), (65_536, &[40_000_000]), 2),
        refuses_with(1, 1, (1, &[0]), (0, &[0]), buffers(&[], &[]), 2),
        // 3 and 4, 11, 12, 7
        refuses(1, 2, (1, &[1001, 0]), (1, &[0]), 3),
        refuses(1, 2, (2, &[1]), (32_769, &[1, 1]), 3),
        refuses(1, 2, (1, &[600, 0]), (1, &[600]), 3),
        refuses_with(1, 2, (1, &[0]), (1, &[0, 0]), buffers(&[], &[]), 3),
        // 4 and 11, 12, 7
        refuses(1, 1, (2, &[2001]), (32_769, &[1]), 4),
        refuses(1, 1, (1, &[1001]), (1, &[0]), 4),
        refuses_with(1, 1, (1, &[0]), (7, &[7001]), buffers(&[], &[]), 4),
        // 11 and 12, 7
        refuses(1, 1, (2, &[2000]), (32_769, &[32_769_000]), 11),
        refuses_with(1, 1, (2, &[1]), (32_769, &[1]), buffers(&[], &[]), 11),
        // 12 and 7
        refuses_with(1, 1, (1, &[600]), (1, &[600]), buffers(&[8], &[]), 12),
    ]
}

/// A standing table of three shelf zones by four kinds over 10, and a week's recall list
/// over 4.
pub fn recall() -> Pool {
    let standing = [45, 23, 0, 12, 31, 26, 4, 19, 0, 14, 52, 14];
    let list = [0, 0, 0, 0, 0, 0, 0, 3, 0, 2, 0, 0];
    let pooled = [90, 46, 0, 24, 62, 52, 8, 53, 0, 38, 104, 28];
    gives(3, 4, (10, &standing), (4, &list), (20, &pooled))
}
