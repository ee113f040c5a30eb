//! Tables of the papers, some with weights and counts that the papers state.

use crate::GivenTable;

/// Weights with counts in row order.
pub type WeightedArrays = Vec<(u64, Vec<u64>)>;

/// A table with weighted arrays that the papers state for it.
#[derive(Clone, Debug)]
pub struct Example {
    pub table: GivenTable,
    pub arrays: WeightedArrays,
}

impl Example {
    pub(crate) fn new<const CELLS: usize>(
        table: GivenTable,
        arrays: &[(u64, [u64; CELLS])],
    ) -> Example {
        let arrays = arrays
            .iter()
            .map(|(weight, counts)| (*weight, counts.to_vec()))
            .collect();
        Example { table, arrays }
    }
}

/// The specification's listing, a plan.
pub fn listing() -> Example {
    let arrays = [
        (2, [0, 0, 0, 1]),
        (1, [0, 0, 1, 1]),
        (4, [0, 1, 1, 0]),
        (3, [1, 0, 0, 1]),
    ];
    Example::new(GivenTable::by_rows(10, &[[3, 4], [5, 6]]), &arrays)
}

/// The arrays of the listing, counted from 0, that the draw numbers belong to.
pub const LISTING_DRAWS: [usize; 10] = [0, 0, 1, 2, 2, 2, 2, 3, 3, 3];

/// The specification's plan of one cell.
pub fn one_cell() -> Example {
    Example::new(GivenTable::by_rows(3, &[[2]]), &[(1, [0]), (2, [1])])
}

/// The specification's plan of four halves.
pub fn four_halves() -> Example {
    let arrays = [(1, [0, 1, 1, 0]), (1, [1, 0, 0, 1])];
    Example::new(GivenTable::by_rows(2, &[[1, 1], [1, 1]]), &arrays)
}

/// The specification's plan of one row with a whole cell.
pub fn one_row() -> Example {
    let arrays = [(2, [1, 1]), (2, [1, 2])];
    Example::new(GivenTable::by_rows(4, &[[4, 6]]), &arrays)
}

/// The solution of document 001, Section 2, in fifths. It opens.
pub fn document_001() -> Example {
    let rows = [[3, 2, 0], [2, 3, 0], [1, 3, 1], [4, 2, 0]];
    let arrays = [
        (1, [0, 1, 0, 1, 0, 0, 1, 0, 0, 0, 1, 0]),
        (3, [1, 0, 0, 0, 1, 0, 0, 1, 0, 1, 0, 0]),
        (1, [0, 1, 0, 1, 0, 0, 0, 0, 1, 1, 1, 0]),
    ];
    Example::new(GivenTable::by_rows(5, &rows), &arrays)
}

/// The four-by-four table of document 002, in twentieths.
pub fn document_002() -> GivenTable {
    let rows = [[0, 9, 15, 6], [12, 6, 6, 6], [9, 3, 6, 12], [9, 12, 3, 6]];
    GivenTable::by_rows(20, &rows)
}

/// Problem 2.1 of document 004, in tenths.
pub fn problem_2_1() -> GivenTable {
    GivenTable::by_rows(10, &[[8, 5, 7], [7, 8, 5], [5, 7, 8]])
}

/// The controlled roundings of Problem 2.1, those of Table 4.1 in the stated order.
pub const PROBLEM_2_1_ARRAYS: [[u16; 9]; 6] = [
    [0, 1, 1, 1, 0, 1, 1, 1, 0],
    [0, 1, 1, 1, 1, 0, 1, 0, 1],
    [1, 0, 1, 0, 1, 1, 1, 1, 0],
    [1, 0, 1, 1, 1, 0, 0, 1, 1],
    [1, 1, 0, 0, 1, 1, 1, 0, 1],
    [1, 1, 0, 1, 0, 1, 0, 1, 1],
];

/// The solution to Problem 2.1 that most methods of Table 8.2 give. It opens.
pub fn problem_2_1_common() -> Example {
    let arrays = [
        (2, [0, 1, 1, 1, 0, 1, 1, 1, 0]),
        (5, [1, 0, 1, 1, 1, 0, 0, 1, 1]),
        (3, [1, 1, 0, 0, 1, 1, 1, 0, 1]),
    ];
    Example::new(problem_2_1(), &arrays)
}

/// The solution to Problem 2.1 by Jessen's method 3, of the same table. It opens.
pub fn problem_2_1_method_3() -> Example {
    let arrays = [
        (1, [0, 1, 1, 1, 0, 1, 1, 1, 0]),
        (4, [1, 0, 1, 1, 1, 0, 0, 1, 1]),
        (2, [1, 1, 0, 0, 1, 1, 1, 0, 1]),
        (1, [0, 1, 1, 1, 1, 0, 1, 0, 1]),
        (1, [1, 0, 1, 0, 1, 1, 1, 1, 0]),
        (1, [1, 1, 0, 1, 0, 1, 0, 1, 1]),
    ];
    Example::new(problem_2_1(), &arrays)
}

/// Problem 2.2 of document 004, in tenths, as the solutions of its Table 8.3 add up. It
/// has 30 controlled roundings.
pub fn problem_2_2() -> GivenTable {
    let rows = [[0, 6, 10, 4], [8, 4, 4, 4], [6, 2, 4, 8], [6, 8, 2, 4]];
    GivenTable::by_rows(10, &rows)
}

/// The solution to Problem 2.2 that the methods of document 004 give. It opens.
pub fn problem_2_2_new_methods() -> Example {
    let arrays = [
        (2, [0, 0, 1, 1, 0, 1, 0, 1, 1, 1, 0, 0, 1, 0, 1, 0]),
        (2, [0, 0, 1, 1, 1, 1, 0, 0, 0, 0, 1, 1, 1, 1, 0, 0]),
        (2, [0, 1, 1, 0, 1, 0, 0, 1, 0, 0, 1, 1, 1, 1, 0, 0]),
        (4, [0, 1, 1, 0, 1, 0, 1, 0, 1, 0, 0, 1, 0, 1, 0, 1]),
    ];
    Example::new(problem_2_2(), &arrays)
}

/// The solution to Problem 2.2 by the method of Sitter and Skinner, of the same table. It
/// opens.
pub fn problem_2_2_sitter_skinner() -> Example {
    let arrays = [
        (4, [0, 0, 1, 1, 1, 1, 0, 0, 0, 0, 1, 1, 1, 1, 0, 0]),
        (2, [0, 1, 1, 0, 1, 0, 1, 0, 1, 0, 0, 1, 0, 1, 0, 1]),
        (2, [0, 1, 1, 0, 0, 0, 1, 1, 1, 1, 0, 0, 1, 0, 0, 1]),
        (2, [0, 1, 1, 0, 1, 0, 0, 1, 1, 0, 0, 1, 0, 1, 1, 0]),
    ];
    Example::new(problem_2_2(), &arrays)
}

/// The solution to Problem 2.2 by Jessen's method, of the same table. It opens.
pub fn problem_2_2_jessen() -> Example {
    let arrays = [
        (2, [0, 0, 1, 1, 1, 1, 0, 0, 0, 0, 1, 1, 1, 1, 0, 0]),
        (4, [0, 1, 1, 0, 1, 0, 1, 0, 1, 0, 0, 1, 0, 1, 0, 1]),
        (2, [0, 1, 1, 0, 1, 0, 0, 1, 0, 1, 0, 1, 1, 0, 1, 0]),
        (2, [0, 0, 1, 1, 0, 1, 0, 1, 1, 0, 1, 0, 1, 1, 0, 0]),
    ];
    Example::new(problem_2_2(), &arrays)
}

/// Problem 2.4 of document 004, in thousandths.
pub fn problem_2_4() -> GivenTable {
    let rows = [
        [2000, 2483, 1052, 103, 362],
        [2182, 1061, 1101, 1046, 610],
        [0, 1614, 1914, 2200, 1272],
        [860, 377, 930, 2840, 2993],
        [958, 465, 2003, 1811, 4763],
    ];
    GivenTable::by_rows(1000, &rows)
}

/// The plan of 02, F-3: the grand totals of its arrays are 0 and 2 where 1 is planned.
/// It does not open.
pub fn grand_total_not_kept() -> Example {
    let arrays = [(1, [0, 0, 0, 0]), (1, [1, 0, 0, 1])];
    Example::new(GivenTable::by_rows(2, &[[1, 0], [0, 1]]), &arrays)
}

/// Weights that add up to one less than the denominator, though the cell is balanced.
pub fn weights_one_short() -> Example {
    Example::new(GivenTable::by_rows(3, &[[2]]), &[(2, [1])])
}
