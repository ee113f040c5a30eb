//! The lowest refusal that applies is returned, and no buffer changes.

use crate::samples::{listed_plan, stored_plan, table};
use reference::{campaign_draw, draw, encode, plan, round, start, Refusal};

/// Rounding and planning into a buffer both refuse so and leave the buffer alone.
fn assert_refused(given: (u32, u32, u32, &[u32]), room: usize, refusal: Refusal) {
    let (rows, columns, denominator, cells) = given;
    let mut counts = vec![0xABCD; room];
    let rounded = round(rows, columns, denominator, cells, &mut counts);
    assert_eq!(rounded, Err(refusal), "{given:?}");
    assert_eq!(counts, vec![0xABCD; room]);
    let mut bytes = vec![0xAB; room];
    let planned = plan(rows, columns, denominator, cells, &mut bytes);
    assert_eq!(planned, Err(refusal), "{given:?}");
    assert_eq!(bytes, vec![0xAB; room]);
}

#[test]
fn tables_are_refused_by_the_lowest_number() {
    for size in [0, 13, u32::MAX] {
        assert_refused((size, 2, 0, &[9; 3]), 0, Refusal::Size);
        assert_refused((2, size, 65_536, &[u32::MAX; 4]), 0, Refusal::Size);
        assert_refused((size, size, 10, &[0; 4]), 9000, Refusal::Size);
    }
    for denominator in [0, 65_536, u32::MAX] {
        assert_refused((2, 2, denominator, &[9; 3]), 0, Refusal::Denominator);
        assert_refused((2, 2, denominator, &[0; 4]), 9000, Refusal::Denominator);
    }
    for cells in [0, 3, 5] {
        let large = vec![10_001; cells];
        assert_refused((2, 2, 10, &large), 0, Refusal::CellCount);
        assert_refused((2, 2, 10, &vec![0; cells]), 9000, Refusal::CellCount);
    }
    for cell in [10_001, u32::MAX] {
        assert_refused((2, 2, 10, &[0, 0, 0, cell]), 0, Refusal::LargeCell);
        assert_refused((2, 2, 10, &[cell, 0, 0, 0]), 9000, Refusal::LargeCell);
    }
    assert_refused((2, 2, 10, &[3, 4, 5, 6]), 0, Refusal::ShortBuffer);
    assert_refused((2, 2, 10, &[3, 4, 5, 6]), 3, Refusal::ShortBuffer);
}

#[test]
fn rounding_needs_room_for_every_count_and_touches_no_more() {
    let cells = [3, 4, 5, 6];
    let mut short = [7; 3];
    let refused = round(2, 2, 10, &cells, &mut short);
    assert_eq!((refused, short), (Err(Refusal::ShortBuffer), [7; 3]));
    let mut long = [7; 6];
    assert_eq!(round(2, 2, 10, &cells, &mut long), Ok(()));
    assert_eq!(long, [0, 0, 0, 1, 7, 7]);
}

#[test]
fn planning_needs_room_for_every_byte_and_touches_no_more() {
    let stored = encode(&listed_plan());
    let cells = [3, 4, 5, 6];
    let mut short = vec![7; stored.len() - 1];
    let refused = plan(2, 2, 10, &cells, &mut short);
    assert_eq!(refused, Err(Refusal::ShortBuffer));
    assert_eq!(short, vec![7; stored.len() - 1]);
    let mut long = vec![7; stored.len() + 2];
    assert_eq!(plan(2, 2, 10, &cells, &mut long), Ok(stored.len() as u32));
    assert_eq!(long, [&stored[..], &[7, 7]].concat());
}

#[test]
fn draws_are_refused_by_the_lowest_number() {
    let good = encode(&listed_plan());
    let misplaced = [&good[..], &[0]].concat();
    let mut unbalanced = good.clone();
    unbalanced[48] ^= 1;
    let refused = |bytes: &[u8], number, room| {
        let mut counts = vec![7; room];
        let answer = draw(bytes, number, &mut counts);
        assert_eq!(counts, vec![7; room]);
        answer.expect_err("the draw is refused")
    };
    assert_eq!(refused(&misplaced, 10, 3), Refusal::Layout);
    assert_eq!(refused(&unbalanced, 10, 3), Refusal::Content);
    assert_eq!(refused(&good, 10, 3), Refusal::ShortBuffer);
    assert_eq!(refused(&good, 9, 0), Refusal::ShortBuffer);
    assert_eq!(refused(&good, 10, 4), Refusal::DrawNumber);
    assert_eq!(refused(&good, u32::MAX, 4), Refusal::DrawNumber);
}

#[test]
fn starts_are_refused_by_the_lowest_number() {
    let good = stored_plan(&table(2, 2, 10, &[3, 4, 5, 6]));
    let mut unbalanced = good.clone();
    unbalanced[48] ^= 1;
    let refused = |bytes: &[u8], bytes_of_bits, sums| {
        let (mut taken, mut rounds) = (5, 6);
        let (mut bits, mut tally) = (vec![7; bytes_of_bits], vec![7; sums]);
        let answer = start(bytes, &mut taken, &mut rounds, &mut bits, &mut tally);
        assert_eq!((taken, rounds), (5, 6));
        assert_eq!((bits, tally), (vec![7; bytes_of_bits], vec![7; sums]));
        answer.expect_err("the start is refused")
    };
    assert_eq!(refused(&good[1..], 0, 0), Refusal::Layout);
    assert_eq!(refused(&unbalanced, 0, 0), Refusal::Content);
    assert_eq!(refused(&good, 1, 4), Refusal::ShortBuffer);
    assert_eq!(refused(&good, 2, 3), Refusal::ShortBuffer);
}

/// What is lent to a campaign draw.
#[derive(Clone, Debug, PartialEq)]
struct Lent {
    plan: Vec<u8>,
    taken: u32,
    rounds: u16,
    bits: Vec<u8>,
    tally: Vec<u64>,
    counts: Vec<u16>,
}

/// The number that refuses a campaign draw of the listing, which changes nothing.
fn refused_draw(number: u32, lent: Lent) -> u32 {
    let mut left = lent.clone();
    let answer = campaign_draw(
        &left.plan,
        number,
        &mut left.taken,
        &mut left.rounds,
        &mut left.bits,
        &mut left.tally,
        &mut left.counts,
    );
    assert_eq!(left, lent);
    answer.expect_err("the draw is refused").number()
}

/// The same with number 0 taken in the third round, after one change.
fn refused_in_round(number: u32, change: fn(&mut Lent)) -> u32 {
    let mut lent = Lent {
        plan: encode(&listed_plan()),
        taken: 1,
        rounds: 2,
        bits: vec![1, 0, 0xFF],
        tally: vec![6, 8, 10, 13, 9],
        counts: vec![7; 5],
    };
    change(&mut lent);
    refused_draw(number, lent)
}

/// The same with 1,000 rounds done, after one change.
fn refused_at_the_end(number: u32, change: fn(&mut Lent)) -> u32 {
    let mut lent = Lent {
        plan: encode(&listed_plan()),
        taken: 0,
        rounds: 1000,
        bits: vec![0, 0, 0xFF],
        tally: vec![3000, 4000, 5000, 6000, 9],
        counts: vec![7; 5],
    };
    change(&mut lent);
    refused_draw(number, lent)
}

#[test]
fn campaign_draws_need_a_plan_that_opens_first() {
    assert_eq!(refused_at_the_end(99, |lent| lent.plan.truncate(9)), 5);
    assert_eq!(refused_at_the_end(99, |lent| lent.plan[48] ^= 1), 6);
}

#[test]
fn campaign_draws_need_room_next() {
    for refused in [refused_in_round, refused_at_the_end] {
        assert_eq!(refused(99, |lent| lent.counts.truncate(3)), 7);
        assert_eq!(refused(99, |lent| lent.tally.truncate(3)), 7);
        let short_bits = |lent: &mut Lent| (lent.taken = 9, lent.bits.truncate(1)).1;
        assert_eq!(refused(99, short_bits), 7);
    }
}

#[test]
fn campaign_draws_need_a_number_below_the_denominator_next() {
    for refused in [refused_in_round, refused_at_the_end] {
        assert_eq!(refused(10, |_| ()), 8);
        assert_eq!(refused(10, |lent| lent.taken = 2), 8);
        assert_eq!(refused(10, |lent| lent.rounds = 1001), 8);
    }
}

#[test]
fn campaign_draws_need_bits_and_a_count_that_fit_next() {
    assert_eq!(refused_in_round(0, |lent| lent.taken = 2), 9);
    assert_eq!(refused_in_round(0, |lent| lent.taken = 0), 9);
    assert_eq!(refused_in_round(0, |lent| lent.bits[1] |= 4), 9);
    assert_eq!(refused_in_round(0, |lent| lent.bits[1] |= 0x80), 9);
    assert_eq!(refused_in_round(0, |lent| lent.bits[0] = 0x80), 9);
    assert_eq!(refused_in_round(5, |lent| lent.bits[0] = 0), 9);
    assert_eq!(refused_at_the_end(5, |lent| lent.bits[1] |= 4), 9);
    assert_eq!(refused_at_the_end(5, |lent| lent.taken = 1), 9);
}

#[test]
fn campaign_draws_need_a_tally_that_fits_besides() {
    for refused in [refused_in_round, refused_at_the_end] {
        assert_eq!(refused(5, |lent| lent.tally[0] += 1), 9);
        assert_eq!(refused(5, |lent| lent.tally[3] -= 1), 9);
        assert_eq!(refused(5, |lent| lent.tally[3] = u64::MAX), 9);
        assert_eq!(refused(5, |lent| lent.tally[1] += 1 << 32), 9);
        assert_eq!(refused(5, |lent| lent.rounds -= 1), 9);
    }
    assert_eq!(refused_in_round(5, |lent| lent.rounds = 3), 9);
    // what was drawn in this round alone
    let this_round = |lent: &mut Lent| lent.tally[..4].copy_from_slice(&[0, 0, 0, 1]);
    assert_eq!(refused_in_round(5, this_round), 9);
}

#[test]
fn campaign_draws_need_at_most_a_thousand_rounds_besides() {
    for refused in [refused_in_round, refused_at_the_end] {
        assert_eq!(refused(5, |lent| lent.rounds = 1001), 9);
        assert_eq!(refused(5, |lent| lent.rounds = u16::MAX), 9);
    }
    let one_more = |lent: &mut Lent| {
        lent.rounds = 1001;
        lent.tally = vec![3003, 4004, 5005, 6006, 9];
    };
    assert_eq!(refused_at_the_end(5, one_more), 9);
}

#[test]
fn campaign_draws_need_a_free_number_besides_and_all_at_the_end() {
    let all_taken = |lent: &mut Lent| {
        lent.taken = 10;
        lent.bits = vec![0xFF, 0b11, 0xFF];
        lent.tally = vec![9, 12, 15, 18, 9];
    };
    assert_eq!(refused_in_round(5, all_taken), 9);
    let one_taken = |lent: &mut Lent| {
        lent.taken = 1;
        lent.bits[0] = 1;
        lent.tally[3] += 1;
    };
    assert_eq!(refused_at_the_end(5, one_taken), 9);
    assert_eq!(refused_at_the_end(0, one_taken), 9);
}

#[test]
fn campaign_draws_need_a_round_that_is_not_done_next() {
    assert_eq!(refused_at_the_end(0, |_| ()), 13);
    assert_eq!(refused_at_the_end(9, |_| ()), 13);
}

#[test]
fn campaign_draws_need_a_number_not_taken_last() {
    assert_eq!(refused_in_round(0, |_| ()), 10);
    assert_eq!(refused_in_round(1, |lent| lent.bits[0] = 2), 10);
}
