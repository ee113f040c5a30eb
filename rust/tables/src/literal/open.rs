//! Plans that open, and for each condition of opening some that fail it (01, "Stored
//! plan, form 1" and "Turned back").

use super::stored::{changed, longer, LARGEST, RECURRING, SQUARE, WIDE};

/// One cell 2 over D 3: equal arrays recur, in any order.
#[rustfmt::skip]
pub(super) const THREE_ONES: &[u8] = &[
    1, 0, 1, 1, 3, 0, 0, 0,
    3, 0, 0, 0, 40, 0, 0, 0,
    1, 0, 0, 0, 44, 0, 0, 0,
    1, 0, 0, 0, 46, 0, 0, 0,
    1, 0, 0, 0, 48, 0, 0, 0,
    2, 0, 0, 0,
    1, 0,
    0, 0,
    1, 0,
];

/// The plan of 02, F-3, D 2, cells 1 0 0 1: every cell, row and column keeps its bounds,
/// and the grand total is 0 in one array and 2 in the other where 1 is planned.
#[rustfmt::skip]
const SWINGING: &[u8] = &[
    1, 0, 2, 2, 2, 0, 0, 0,
    2, 0, 0, 0, 32, 0, 0, 0,
    1, 0, 0, 0, 48, 0, 0, 0,
    1, 0, 0, 0, 56, 0, 0, 0,
    1, 0, 0, 0, 0, 0, 0, 0, 0, 0, 0, 0, 1, 0, 0, 0,
    0, 0, 0, 0, 0, 0, 0, 0,
    1, 0, 0, 0, 0, 0, 1, 0,
];

/// D 2, cells 1 1 1 0: the grand total, 3 over 2, is 1 in one array and 2 in the other.
#[rustfmt::skip]
pub(super) const GRAND_VARIES: &[u8] = &[
    1, 0, 2, 2, 2, 0, 0, 0,
    2, 0, 0, 0, 32, 0, 0, 0,
    1, 0, 0, 0, 48, 0, 0, 0,
    1, 0, 0, 0, 56, 0, 0, 0,
    1, 0, 0, 0, 1, 0, 0, 0, 1, 0, 0, 0, 0, 0, 0, 0,
    1, 0, 0, 0, 0, 0, 0, 0,
    0, 0, 1, 0, 1, 0, 0, 0,
];

/// D 2, all cells 2: the cells vary though each is whole, rows and columns do not.
#[rustfmt::skip]
const CELLS_VARY: &[u8] = &[
    1, 0, 2, 2, 2, 0, 0, 0,
    2, 0, 0, 0, 32, 0, 0, 0,
    1, 0, 0, 0, 48, 0, 0, 0,
    1, 0, 0, 0, 56, 0, 0, 0,
    2, 0, 0, 0, 2, 0, 0, 0, 2, 0, 0, 0, 2, 0, 0, 0,
    2, 0, 0, 0, 0, 0, 2, 0,
    0, 0, 2, 0, 2, 0, 0, 0,
];

/// D 2, all cells 1: the rows vary though each is whole.
#[rustfmt::skip]
const ROWS_VARY: &[u8] = &[
    1, 0, 2, 2, 2, 0, 0, 0,
    2, 0, 0, 0, 32, 0, 0, 0,
    1, 0, 0, 0, 48, 0, 0, 0,
    1, 0, 0, 0, 56, 0, 0, 0,
    1, 0, 0, 0, 1, 0, 0, 0, 1, 0, 0, 0, 1, 0, 0, 0,
    1, 0, 1, 0, 0, 0, 0, 0,
    0, 0, 0, 0, 1, 0, 1, 0,
];

/// The columns vary.
#[rustfmt::skip]
const COLUMNS_VARY: &[u8] = &[
    1, 0, 2, 2, 2, 0, 0, 0,
    2, 0, 0, 0, 32, 0, 0, 0,
    1, 0, 0, 0, 48, 0, 0, 0,
    1, 0, 0, 0, 56, 0, 0, 0,
    1, 0, 0, 0, 1, 0, 0, 0, 1, 0, 0, 0, 1, 0, 0, 0,
    1, 0, 0, 0, 1, 0, 0, 0,
    0, 0, 1, 0, 0, 0, 1, 0,
];

/// No array.
#[rustfmt::skip]
pub(super) const NO_ARRAYS: &[u8] = &[
    1, 0, 1, 1, 0, 0, 0, 0,
    1, 0, 0, 0, 16, 0, 0, 0,
    0, 0, 0, 0,
];

/// One cell with one array: D, the cell, the weight and the count, each below 256.
#[rustfmt::skip]
pub(super) fn one_cell(denominator: u8, cell: u8, weight: u8, count: u8) -> Vec<u8> {
    vec![
        1, 0, 1, 1, 1, 0, 0, 0,
        denominator, 0, 0, 0, 24, 0, 0, 0,
        weight, 0, 0, 0, 28, 0, 0, 0,
        cell, 0, 0, 0,
        count, 0,
    ]
}

/// Cells 0 over D 1 with one array: r and c, the offset of the array, and then the
/// zeros of both bodies.
#[rustfmt::skip]
pub(super) fn zeros(rows: u8, columns: u8, offset: u8, bytes: usize) -> Vec<u8> {
    let head = [
        1, 0, rows, columns, 1, 0, 0, 0,
        1, 0, 0, 0, 24, 0, 0, 0,
        1, 0, 0, 0, offset, 0, 0, 0,
    ];
    [&head[..], &vec![0; bytes]].concat()
}

/// One cell 0 over D 1 with two arrays, whose weights are 2^31 + 1 and 2^31.
#[rustfmt::skip]
const WRAPPING: &[u8] = &[
    1, 0, 1, 1, 2, 0, 0, 0,
    1, 0, 0, 0, 32, 0, 0, 0,
    1, 0, 0, 128, 36, 0, 0, 0,
    0, 0, 0, 128, 38, 0, 0, 0,
    0, 0, 0, 0,
    0, 0,
    0, 0,
];

/// One cell 0 over D 170 with 170 arrays, weight 1 each.
#[rustfmt::skip]
fn most_arrays() -> Vec<u8> {
    let mut bytes = vec![
        1, 0, 1, 1, 170, 0, 0, 0,
        170, 0, 0, 0, 96, 5, 0, 0,
    ];
    for array in 0..170 {
        let offset = 1380 + 2 * array;
        bytes.extend([1, 0, 0, 0, (offset % 256) as u8, (offset / 256) as u8, 0, 0]);
    }
    bytes.extend([0; 344]);
    bytes
}

/// One cell 0 over D 171 with 171 arrays, weight 1 each.
#[rustfmt::skip]
pub(super) fn many_arrays() -> Vec<u8> {
    let mut bytes = vec![
        1, 0, 1, 1, 171, 0, 0, 0,
        171, 0, 0, 0, 104, 5, 0, 0,
    ];
    for array in 0..171 {
        let offset = 1388 + 2 * array;
        bytes.extend([1, 0, 0, 0, (offset % 256) as u8, (offset / 256) as u8, 0, 0]);
    }
    bytes.extend([0; 346]);
    bytes
}

/// A stored plan, and the number that opening it gives.
#[derive(Debug)]
pub struct Case {
    pub bytes: Vec<u8>,
    pub number: u32,
}

fn gives(bytes: impl Into<Vec<u8>>, number: u32) -> Case {
    Case {
        bytes: bytes.into(),
        number,
    }
}

pub fn cases() -> Vec<Case> {
    let largest = [(8, 255), (9, 255), (16, 255), (17, 255)];
    let beyond = [(9, 255), (10, 1), (17, 255), (18, 1)];
    let two_cells = |cell, count, low| {
        let changes = [(cell, low), (cell + 1, 3), (count, low), (count + 1, 3)];
        changed(&zeros(1, 2, 32, 12), &changes)
    };
    let in_cell = |place| changed(&zeros(2, 2, 40, 24), &[(8, 2), (16, 2), (place, 1)]);
    vec![
        gives(SQUARE, 0),
        gives(WIDE, 0),
        gives(RECURRING, 0),
        gives(LARGEST, 0),
        gives(one_cell(1, 1, 1, 1), 0),
        gives(THREE_ONES, 0),
        // a grand total that is not whole is rounded down in one array and up in another
        gives(GRAND_VARIES, 0),
        // form, zero field, r, c, K, offsets of the table and of an array, a byte more,
        // a byte less
        gives(changed(SQUARE, &[(0, 2)]), 5),
        gives(changed(SQUARE, &[(1, 1)]), 5),
        gives(changed(SQUARE, &[(6, 1)]), 5),
        gives(changed(SQUARE, &[(7, 1)]), 5),
        gives(changed(WIDE, &[(2, 3)]), 5),
        gives(changed(WIDE, &[(3, 2)]), 5),
        gives(changed(WIDE, &[(4, 6)]), 5),
        gives(changed(SQUARE, &[(12, 33)]), 5),
        gives(changed(SQUARE, &[(20, 50)]), 5),
        gives(changed(RECURRING, &[(117, 0)]), 5),
        gives(longer(SQUARE), 5),
        gives(&SQUARE[..63], 5),
        // 256 bytes more; 130 rows, 130 columns
        gives([SQUARE, &[0; 256]].concat(), 5),
        gives(changed(SQUARE, &[(2, 130)]), 5),
        gives(changed(SQUARE, &[(3, 130)]), 5),
        // one byte alone: the high one of K, those of D, and the other three of the offset
        // of the table
        gives(changed(SQUARE, &[(5, 1)]), 5),
        gives(changed(SQUARE, &[(8, 3)]), 6),
        gives(changed(SQUARE, &[(9, 1)]), 6),
        gives(changed(SQUARE, &[(10, 1)]), 5),
        gives(changed(SQUARE, &[(11, 1)]), 5),
        gives(changed(SQUARE, &[(13, 1)]), 5),
        gives(changed(SQUARE, &[(14, 1)]), 5),
        gives(changed(SQUARE, &[(15, 1)]), 5),
        // of the weight and of the offset of the first array, and of the last
        gives(changed(SQUARE, &[(16, 2)]), 6),
        gives(changed(SQUARE, &[(17, 1)]), 6),
        gives(changed(SQUARE, &[(18, 1)]), 6),
        gives(changed(SQUARE, &[(19, 1)]), 6),
        gives(changed(SQUARE, &[(21, 1)]), 5),
        gives(changed(SQUARE, &[(22, 1)]), 5),
        gives(changed(SQUARE, &[(23, 1)]), 5),
        gives(changed(SQUARE, &[(24, 2)]), 6),
        gives(changed(SQUARE, &[(25, 1)]), 6),
        gives(changed(SQUARE, &[(26, 1)]), 6),
        gives(changed(SQUARE, &[(27, 1)]), 6),
        gives(changed(SQUARE, &[(28, 57)]), 5),
        gives(changed(SQUARE, &[(29, 1)]), 5),
        gives(changed(SQUARE, &[(30, 1)]), 5),
        gives(changed(SQUARE, &[(31, 1)]), 5),
        // of the first cell and of the last, of the first count and of the last
        gives(changed(SQUARE, &[(32, 2)]), 6),
        gives(changed(SQUARE, &[(33, 1)]), 6),
        gives(changed(SQUARE, &[(34, 1)]), 6),
        gives(changed(SQUARE, &[(35, 1)]), 6),
        gives(changed(SQUARE, &[(44, 2)]), 6),
        gives(changed(SQUARE, &[(45, 1)]), 6),
        gives(changed(SQUARE, &[(46, 1)]), 6),
        gives(changed(SQUARE, &[(47, 1)]), 6),
        gives(changed(SQUARE, &[(48, 1)]), 6),
        gives(changed(SQUARE, &[(49, 1)]), 6),
        gives(changed(SQUARE, &[(62, 2)]), 6),
        gives(changed(SQUARE, &[(63, 1)]), 6),
        // 12 rows and 13, 12 columns and 13
        gives(zeros(12, 1, 72, 72), 0),
        gives(zeros(13, 1, 76, 78), 5),
        gives(zeros(1, 12, 72, 72), 0),
        gives(zeros(1, 13, 76, 78), 5),
        // 12 of each: the offset of the array is 600
        gives(changed(&zeros(12, 12, 88, 864), &[(21, 2)]), 0),
        // no rows, no columns, D 0, D 65,535 and 65,536 with its only weight
        gives(zeros(0, 1, 24, 0), 5),
        gives(zeros(1, 0, 24, 0), 5),
        gives(one_cell(0, 0, 1, 0), 5),
        gives(changed(&one_cell(0, 0, 0, 0), &largest), 0),
        gives(changed(&one_cell(0, 0, 0, 0), &[(10, 1), (18, 1)]), 5),
        // D and its only weight of 65,537, of 131,071 and of 16,777,217
        gives(changed(&one_cell(1, 0, 1, 0), &[(10, 1), (18, 1)]), 5),
        gives(changed(&one_cell(255, 0, 255, 0), &beyond), 5),
        gives(changed(&one_cell(1, 0, 1, 0), &[(11, 1), (19, 1)]), 5),
        // 170 arrays and 171, no arrays, and no bytes at all
        gives(most_arrays(), 0),
        gives(many_arrays(), 5),
        gives(NO_ARRAYS, 5),
        gives([], 5),
        // a cell of 1000·D and of one more, over D 1, with its count
        gives(changed(&one_cell(1, 232, 1, 232), &[(25, 3), (29, 3)]), 0),
        gives(changed(&one_cell(1, 233, 1, 233), &[(25, 3), (29, 3)]), 6),
        // of two cells the second is 1000·D, the second is one more, the first is one more
        gives(two_cells(28, 34, 232), 0),
        gives(two_cells(28, 34, 233), 6),
        gives(two_cells(24, 32, 233), 6),
        // a weight of 0, the last, the first or the second, and weights that add up to
        // D − 1 and D + 1
        gives(changed(THREE_ONES, &[(16, 2), (32, 0)]), 6),
        gives(changed(THREE_ONES, &[(16, 0), (32, 2)]), 6),
        gives(changed(THREE_ONES, &[(16, 2), (24, 0), (48, 0)]), 6),
        gives(one_cell(2, 0, 1, 0), 6),
        gives(one_cell(2, 0, 3, 0), 6),
        // a weight of which only the low part is D: 257, 65,537 and 16,777,217 over D 1; and
        // two that add up to 2^32 + 1
        gives(changed(&one_cell(1, 0, 1, 0), &[(17, 1)]), 6),
        gives(changed(&one_cell(1, 0, 1, 0), &[(18, 1)]), 6),
        gives(changed(&one_cell(1, 0, 1, 0), &[(19, 1)]), 6),
        gives(WRAPPING, 6),
        // cells that vary where lines do not, rows that vary, columns that vary
        gives(CELLS_VARY, 6),
        gives(ROWS_VARY, 6),
        gives(COLUMNS_VARY, 6),
        // a cell 3 over D 3 is 1 in the first array alone, in the last alone, in the second
        // alone
        gives(changed(THREE_ONES, &[(40, 3), (48, 2)]), 6),
        gives(changed(THREE_ONES, &[(40, 3), (44, 2)]), 6),
        gives(
            changed(THREE_ONES, &[(40, 3), (44, 0), (46, 1), (48, 2)]),
            6,
        ),
        // only the grand total is wrong: 0 and 2 where 1 is planned, 2 where 2 over 4 is,
        // 0 where 6 over 4 is
        gives(SWINGING, 6),
        gives(changed(SWINGING, &[(8, 4), (16, 3)]), 6),
        gives(changed(SWINGING, &[(8, 4), (24, 3), (32, 3), (44, 3)]), 6),
        // counts times weights that do not add up to the table
        gives(one_cell(2, 1, 2, 0), 6),
        // in one cell alone of two rows and two columns
        gives(in_cell(24), 6),
        gives(in_cell(28), 6),
        gives(in_cell(32), 6),
        gives(in_cell(36), 6),
        // 5 and 6 both apply
        gives(longer(&one_cell(2, 0, 1, 0)), 5),
    ]
}
