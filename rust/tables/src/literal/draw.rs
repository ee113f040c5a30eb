//! Draws (01, "The plan", "Stored plan, form 1" and "Turned back").

use super::open::one_cell;
use super::stored::{longer, LARGEST, RECURRING, WIDE};
use super::{Call, FIVE, ONE, SIX};

/// A plan, and the draw number that is asked for.
#[derive(Debug)]
pub struct Asked {
    pub plan: Vec<u8>,
    pub number: u32,
}

pub type Draw = Call<Asked, u16>;

fn asked(plan: &[u8], number: u32) -> Asked {
    Asked {
        plan: plan.to_vec(),
        number,
    }
}

fn draws(plan: &[u8], number: u32, buffer: &[u16], result: &[u16]) -> Draw {
    Call::returns(asked(plan, number), buffer, 0, result)
}

fn refuses(plan: &[u8], number: u32, buffer: &[u16], refusal: u32) -> Draw {
    Call::refuses(asked(plan, number), buffer, refusal)
}

pub fn calls() -> Vec<Draw> {
    let (long, light) = (longer(WIDE), one_cell(2, 0, 1, 0));
    vec![
        // the arrays begin at numbers 0, 100, 594, 595, 600, 776 and 936
        draws(WIDE, 0, SIX, &[300, 0, 66, 1, 1, 1]),
        draws(WIDE, 99, SIX, &[300, 0, 66, 1, 1, 1]),
        draws(WIDE, 100, SIX, &[300, 0, 66, 2, 0, 1]),
        draws(WIDE, 593, SIX, &[300, 0, 66, 2, 0, 1]),
        draws(WIDE, 594, SIX, &[300, 1, 66, 2, 0, 0]),
        draws(WIDE, 595, SIX, &[300, 1, 66, 2, 0, 1]),
        draws(WIDE, 600, SIX, &[301, 0, 66, 1, 0, 1]),
        draws(WIDE, 776, SIX, &[301, 0, 66, 1, 1, 1]),
        draws(WIDE, 936, SIX, &[301, 1, 65, 1, 0, 1]),
        draws(WIDE, 999, SIX, &[301, 1, 65, 1, 0, 1]),
        // the second array has seven stretches of numbers
        draws(RECURRING, 100, SIX, &[300, 0, 66, 2, 0, 1]),
        draws(RECURRING, 399, SIX, &[300, 0, 66, 2, 0, 1]),
        draws(RECURRING, 400, SIX, &[300, 0, 66, 2, 0, 1]),
        draws(RECURRING, 593, SIX, &[300, 0, 66, 2, 0, 1]),
        draws(RECURRING, 594, SIX, &[300, 1, 66, 2, 0, 0]),
        // the last number of the largest denominator
        draws(LARGEST, 65_534, ONE, &[1000]),
        // what the buffer has beyond the array stays
        draws(
            WIDE,
            0,
            &[8, 8, 8, 8, 8, 8, 9, 7],
            &[300, 0, 66, 1, 1, 1, 9, 7],
        ),
        draws(
            WIDE,
            0,
            &[8; 256],
            &[&[300, 0, 66, 1, 1, 1][..], &[8; 250]].concat(),
        ),
        // 5, 6, 7 and 8 alone
        refuses(&long, 0, SIX, 5),
        refuses(&light, 0, SIX, 6),
        refuses(WIDE, 0, FIVE, 7),
        refuses(WIDE, 1000, SIX, 8),
        // 8: numbers of which only the low part is below D
        refuses(WIDE, 1024, SIX, 8),
        refuses(WIDE, 65_536, SIX, 8),
        refuses(WIDE, 66_130, SIX, 8),
        refuses(WIDE, 16_777_216, SIX, 8),
        refuses(WIDE, 2_147_483_648, SIX, 8),
        refuses(WIDE, 4_294_967_295, SIX, 8),
        refuses(LARGEST, 65_535, ONE, 8),
        refuses(LARGEST, 65_536, ONE, 8),
        refuses(LARGEST, 4_294_967_295, ONE, 8),
        // two of them: 5 and 7, 5 and 8, 6 and 7, 6 and 8, 7 and 8
        refuses(&long, 0, FIVE, 5),
        refuses(&long, 1000, SIX, 5),
        refuses(&light, 0, &[], 6),
        refuses(&light, 2, SIX, 6),
        refuses(WIDE, 1000, FIVE, 7),
    ]
}
