//! What a stored plan has: calls beyond 01 that tell its sizes, its cells and its arrays,
//! with 01's refusals 5, 6 and 7, and with 14 of 02, F-6, before 7.

use super::stored::{changed, longer, LARGEST, WIDE};
use super::{Call, FIVE, ONE, SIX};

/// A plan; the call lends a buffer for numbers.
pub type Telling = Call<Vec<u8>, u32>;

fn tells(plan: &[u8], buffer: &[u32], result: &[u32]) -> Telling {
    Call::returns(plan.to_vec(), buffer, 0, result)
}

fn refuses(plan: &[u8], buffer: &[u32], number: u32) -> Telling {
    Call::refuses(plan.to_vec(), buffer, number)
}

/// `WIDE` with a weight one too large: it does not open, 6.
fn heavy() -> Vec<u8> {
    changed(WIDE, &[(16, 101)])
}

/// Calls that tell rows, columns, arrays and denominator.
pub fn sizes() -> Vec<Telling> {
    vec![
        tells(WIDE, &[8; 4], &[2, 3, 7, 1000]),
        // what the buffer has beyond the sizes stays
        tells(WIDE, &[8, 8, 8, 8, 9], &[2, 3, 7, 1000, 9]),
        tells(WIDE, &[8; 256], &[&[2, 3, 7, 1000][..], &[8; 252]].concat()),
        tells(LARGEST, &[8; 4], &[1, 1, 1, 65_535]),
        // 7, 5 and 6 alone
        refuses(WIDE, &[8; 3], 7),
        refuses(&longer(WIDE), &[8; 4], 5),
        refuses(&heavy(), &[8; 4], 6),
        // 5 and 7, 6 and 7
        refuses(&longer(WIDE), &[], 5),
        refuses(&heavy(), &[8; 3], 6),
    ]
}

/// Calls that tell the cells of the table.
pub fn cells() -> Vec<Telling> {
    let cells = [300_400, 70, 65_936, 1500, 260, 999];
    vec![
        tells(WIDE, &[8; 6], &cells),
        // what the buffer has beyond the cells stays
        tells(WIDE, &[8, 8, 8, 8, 8, 8, 9], &[&cells[..], &[9]].concat()),
        tells(WIDE, &[8; 256], &[&cells[..], &[8; 250]].concat()),
        tells(LARGEST, &[8], &[65_535_000]),
        // 7, 5 and 6 alone
        refuses(WIDE, &[8; 5], 7),
        refuses(&longer(WIDE), &[8; 6], 5),
        refuses(&heavy(), &[8; 6], 6),
        // 5 and 7, 6 and 7
        refuses(&longer(WIDE), &[], 5),
        refuses(&heavy(), &[8; 5], 6),
    ]
}

/// A plan, the number of an array and the buffers that are lent; the number that is
/// returned, and the buffers as they are left.
#[derive(Debug)]
pub struct Array {
    pub plan: Vec<u8>,
    pub array: u32,
    pub lent: Buffers,
    pub number: u32,
    pub left: Buffers,
}

/// The buffers for the weight and for the counts.
#[derive(Clone, Debug, PartialEq, Eq)]
pub struct Buffers {
    pub weight: Vec<u32>,
    pub counts: Vec<u16>,
}

fn buffers(weight: &[u32], counts: &[u16]) -> Buffers {
    Buffers {
        weight: weight.to_vec(),
        counts: counts.to_vec(),
    }
}

/// Buffers of just the needed lengths.
fn enough() -> Buffers {
    buffers(&[8], SIX)
}

fn tells_array(plan: &[u8], array: u32, lent: Buffers, left: Buffers) -> Array {
    Array {
        plan: plan.to_vec(),
        array,
        lent,
        number: 0,
        left,
    }
}

fn refuses_array(plan: &[u8], array: u32, lent: Buffers, number: u32) -> Array {
    Array {
        plan: plan.to_vec(),
        array,
        lent: lent.clone(),
        number,
        left: lent,
    }
}

/// Calls that tell an array, counted from 1.
pub fn arrays() -> Vec<Array> {
    let first = buffers(&[100], &[300, 0, 66, 1, 1, 1]);
    let second = buffers(&[494], &[300, 0, 66, 2, 0, 1]);
    let longer_buffers = buffers(&[8, 9], &[8, 8, 8, 8, 8, 8, 9]);
    let last = buffers(&[64, 9], &[301, 1, 65, 1, 0, 1, 9]);
    let second_of_many = buffers(
        &[&[494][..], &[8; 255]].concat(),
        &[&[300, 0, 66, 2, 0, 1][..], &[8; 250]].concat(),
    );
    let none = buffers(&[], &[]);
    vec![
        tells_array(WIDE, 1, enough(), first),
        tells_array(WIDE, 2, enough(), second),
        // the last one, with longer buffers, whose rest stays
        tells_array(WIDE, 7, longer_buffers, last),
        tells_array(WIDE, 2, buffers(&[8; 256], &[8; 256]), second_of_many),
        tells_array(LARGEST, 1, buffers(&[8], ONE), buffers(&[65_535], &[1000])),
        // no array 0, none above the last, and none of which only the low part is a number
        // of an array
        refuses_array(WIDE, 0, enough(), 14),
        refuses_array(WIDE, 8, enough(), 14),
        refuses_array(WIDE, 257, enough(), 14),
        refuses_array(WIDE, 65_537, enough(), 14),
        refuses_array(WIDE, 16_777_217, enough(), 14),
        refuses_array(WIDE, 2_147_483_649, enough(), 14),
        refuses_array(WIDE, 4_294_967_295, enough(), 14),
        // no room for the weight, or for the counts
        refuses_array(WIDE, 1, buffers(&[], SIX), 7),
        refuses_array(WIDE, 1, buffers(&[8], FIVE), 7),
        refuses_array(&longer(WIDE), 1, enough(), 5),
        refuses_array(&heavy(), 1, enough(), 6),
        // 14 with 7; 5 and 6 with both
        refuses_array(WIDE, 8, none.clone(), 14),
        refuses_array(&longer(WIDE), 0, none.clone(), 5),
        refuses_array(&heavy(), 0, none, 6),
    ]
}
