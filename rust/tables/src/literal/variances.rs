//! Variances and covariances (02, F-4), as numerators over D·D: the call "variances", with
//! 01's refusals 5, 6 and 7, and what the program prints that reads plans one after another.

use super::open::{many_arrays, one_cell, zeros, GRAND_VARIES, NO_ARRAYS, THREE_ONES};
use super::stored::{changed, longer, RECURRING, SQUARE, WIDE};
use super::Call;

/// 01's listing: two by two, D 10, cells 3 4 5 6.
#[rustfmt::skip]
pub const LISTING: &[u8] = &[
    // form, r, c, K, zero
    1, 0, 2, 2, 4, 0, 0, 0,
    // D and the offset of the table
    10, 0, 0, 0, 48, 0, 0, 0,
    // weight and offset of each array
    2, 0, 0, 0, 64, 0, 0, 0,
    1, 0, 0, 0, 72, 0, 0, 0,
    4, 0, 0, 0, 80, 0, 0, 0,
    3, 0, 0, 0, 88, 0, 0, 0,
    // the table
    3, 0, 0, 0, 4, 0, 0, 0, 5, 0, 0, 0, 6, 0, 0, 0,
    // the arrays
    0, 0, 0, 0, 0, 0, 1, 0,
    0, 0, 0, 0, 1, 0, 1, 0,
    0, 0, 1, 0, 1, 0, 0, 0,
    1, 0, 0, 0, 0, 0, 1, 0,
];

/// 01's fourth example: one row, D 4, cells 4 6.
#[rustfmt::skip]
const ONE_ROW: &[u8] = &[
    1, 0, 1, 2, 2, 0, 0, 0,
    4, 0, 0, 0, 32, 0, 0, 0,
    2, 0, 0, 0, 40, 0, 0, 0,
    2, 0, 0, 0, 44, 0, 0, 0,
    4, 0, 0, 0, 6, 0, 0, 0,
    1, 0, 1, 0,
    1, 0, 2, 0,
];

/// One row, D 10, cells 3 4: the arrays 0 0, 0 1 and 1 0.
#[rustfmt::skip]
const NEVER_BOTH: &[u8] = &[
    1, 0, 1, 2, 3, 0, 0, 0,
    10, 0, 0, 0, 40, 0, 0, 0,
    3, 0, 0, 0, 48, 0, 0, 0,
    4, 0, 0, 0, 52, 0, 0, 0,
    3, 0, 0, 0, 56, 0, 0, 0,
    3, 0, 0, 0, 4, 0, 0, 0,
    0, 0, 0, 0,
    0, 0, 1, 0,
    1, 0, 0, 0,
];

/// One row, D 65,535, cells 65,502,232 and 65,502,233: the arrays 999 1000 and 1000 999.
/// The remainders are 32,767 and 32,768, the weights 32,768 and 32,767.
#[rustfmt::skip]
const LARGEST_COUNTS: &[u8] = &[
    1, 0, 1, 2, 2, 0, 0, 0,
    255, 255, 0, 0, 32, 0, 0, 0,
    0, 128, 0, 0, 40, 0, 0, 0,
    255, 127, 0, 0, 44, 0, 0, 0,
    24, 124, 231, 3, 25, 124, 231, 3,
    231, 3, 232, 3,
    232, 3, 231, 3,
];

/// `LISTING` with a weight one too large: it does not open, 6.
fn heavy() -> Vec<u8> {
    changed(LISTING, &[(16, 3)])
}

/// A plan; the call lends a buffer for the numerators.
pub type Telling = Call<Vec<u8>, i64>;

fn tells(plan: &[u8], buffer: &[i64], result: &[i64]) -> Telling {
    Call::returns(plan.to_vec(), buffer, 0, result)
}

fn refuses(plan: &[u8], buffer: &[i64], number: u32) -> Telling {
    Call::refuses(plan.to_vec(), buffer, number)
}

/// Calls that write the sum of all cell variances, and the smallest and the largest
/// covariance of two different cells.
pub fn calls() -> Vec<Telling> {
    vec![
        // 3·7 + 4·6 + 5·5 + 6·4; the second cell and the fourth, 10·0 − 4·6; the second
        // and the third, 10·4·1·1 − 4·5
        tells(LISTING, &[8; 3], &[94, -24, 20]),
        // four times 1·1; cells of a row or a column 2·0 − 1·1, of a diagonal 2·1 − 1·1
        tells(SQUARE, &[8; 3], &[4, -1, 1]),
        // counts above 1: the first cell and the fourth, and the first and the fifth
        tells(WIDE, &[8; 3], &[808_403, -200_000, 56_000]),
        // equal arrays recur
        tells(RECURRING, &[8; 3], &[808_403, -200_000, 56_000]),
        // a grand total that is not whole
        tells(GRAND_VARIES, &[8; 3], &[3, -1, 1]),
        // one cell: there are no two, whatever its variance
        tells(&one_cell(1, 1, 1, 1), &[8; 3], &[0, 0, 0]),
        tells(THREE_ONES, &[8; 3], &[2, 0, 0]),
        // a whole cell and another: 2·2, and 4·(2·1·1 + 2·1·2) − 4·6
        tells(ONE_ROW, &[8; 3], &[4, 0, 0]),
        // the only covariance is negative, 10·0 − 3·4, and so is the largest
        tells(NEVER_BOTH, &[8; 3], &[45, -12, -12]),
        // large counts: twice 32,767·32,768, and that much below 0
        tells(
            LARGEST_COUNTS,
            &[8; 3],
            &[2_147_418_112, -1_073_709_056, -1_073_709_056],
        ),
        // zeros
        tells(&zeros(12, 1, 72, 72), &[8; 3], &[0, 0, 0]),
        // what the buffer has beyond the three stays
        tells(LISTING, &[8, 8, 8, -9], &[94, -24, 20, -9]),
        tells(THREE_ONES, &[8, 8, 8, 9, -9], &[2, 0, 0, 9, -9]),
        // 7, 5 and 6 alone
        refuses(LISTING, &[8; 2], 7),
        refuses(LISTING, &[], 7),
        refuses(THREE_ONES, &[8; 1], 7),
        refuses(&longer(LISTING), &[8; 3], 5),
        refuses(&[], &[8; 3], 5),
        refuses(&heavy(), &[8; 3], 6),
        // 5 and 7, 6 and 7, 5 and 6
        refuses(&longer(LISTING), &[], 5),
        refuses(&heavy(), &[8; 2], 6),
        refuses(&longer(&heavy()), &[8; 3], 5),
    ]
}

/// An input of the program and what is printed of it.
#[derive(Debug)]
pub struct Output {
    pub input: Vec<u8>,
    pub prints: &'static str,
}

fn prints(parts: &[&[u8]], prints: &'static str) -> Output {
    Output {
        input: parts.concat(),
        prints,
    }
}

pub fn outputs() -> Vec<Output> {
    let single = one_cell(1, 1, 1, 1);
    let high = changed(&one_cell(1, 0, 1, 0), &[(10, 1), (18, 1)]);
    vec![
        // nothing; one plan; several
        prints(&[], ""),
        prints(&[LISTING], "1 94 -24 20\n"),
        prints(
            &[WIDE, SQUARE, LISTING],
            "1 808403 -200000 56000\n2 4 -1 1\n3 94 -24 20\n",
        ),
        // one cell, and the same plan again
        prints(
            &[THREE_ONES, &single, THREE_ONES],
            "1 2 0 0\n2 0 0 0\n3 2 0 0\n",
        ),
        prints(&[NEVER_BOTH, ONE_ROW], "1 45 -12 -12\n2 4 0 0\n"),
        prints(&[LARGEST_COUNTS], "1 2147418112 -1073709056 -1073709056\n"),
        // ten plans
        prints(
            &[&single[..]; 10],
            "1 0 0 0\n2 0 0 0\n3 0 0 0\n4 0 0 0\n5 0 0 0\n\
            6 0 0 0\n7 0 0 0\n8 0 0 0\n9 0 0 0\n10 0 0 0\n",
        ),
        // 1 byte left over, and 7
        prints(&[SQUARE, &SQUARE[..1]], "1 4 -1 1\nrefused 5\n"),
        prints(&[SQUARE, &SQUARE[..7]], "1 4 -1 1\nrefused 5\n"),
        prints(&[&[0]], "refused 5\n"),
        // the head alone, and a plan without its last byte
        prints(&[SQUARE, &SQUARE[..8]], "1 4 -1 1\nrefused 5\n"),
        prints(&[SQUARE, &SQUARE[..63]], "1 4 -1 1\nrefused 5\n"),
        // form, zero field, the high byte of the number of arrays
        prints(&[&changed(SQUARE, &[(0, 2)])], "refused 5\n"),
        prints(&[&changed(SQUARE, &[(1, 1)])], "refused 5\n"),
        prints(&[&changed(SQUARE, &[(6, 1)])], "refused 5\n"),
        prints(&[&changed(SQUARE, &[(7, 1)])], "refused 5\n"),
        prints(&[&changed(SQUARE, &[(5, 1)])], "refused 5\n"),
        // 13 rows, 13 columns, none of either, no arrays, 171 arrays
        prints(&[&zeros(13, 1, 76, 78)], "refused 5\n"),
        prints(&[&zeros(1, 13, 76, 78)], "refused 5\n"),
        prints(&[&zeros(0, 1, 24, 0)], "refused 5\n"),
        prints(&[&zeros(1, 0, 24, 0)], "refused 5\n"),
        prints(&[NO_ARRAYS], "refused 5\n"),
        prints(&[&many_arrays()], "refused 5\n"),
        // D 0, D of 65,537, and the offsets of the table and of an array
        prints(&[&one_cell(0, 0, 1, 0)], "refused 5\n"),
        prints(&[&high], "refused 5\n"),
        prints(&[&changed(SQUARE, &[(12, 33)])], "refused 5\n"),
        prints(&[&changed(SQUARE, &[(20, 50)])], "refused 5\n"),
        prints(&[&changed(SQUARE, &[(14, 1)])], "refused 5\n"),
        prints(&[&changed(SQUARE, &[(23, 1)])], "refused 5\n"),
        // 6
        prints(&[&heavy()], "refused 6\n"),
        prints(&[LISTING, &heavy()], "1 94 -24 20\nrefused 6\n"),
        // what stands after a refused plan is not read, be it a plan or none
        prints(&[&heavy(), LISTING], "refused 6\n"),
        prints(&[&changed(SQUARE, &[(0, 2)]), LISTING], "refused 5\n"),
        prints(&[SQUARE, &heavy(), &[0]], "1 4 -1 1\nrefused 6\n"),
        // a byte between two plans is the first of the second
        prints(&[SQUARE, &[0], SQUARE], "1 4 -1 1\nrefused 5\n"),
    ]
}
