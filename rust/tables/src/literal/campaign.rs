//! Starts and campaign draws (01, "Campaign record" and "Turned back"; 02, F-5).

use super::open::one_cell;
use super::stored::{changed, longer, SQUARE};
use super::{FIVE, FOUR, ONE, THREE};

/// A campaign record: the count of numbers taken, the rounds completed, the bits and the
/// tally.
#[derive(Clone, Debug, PartialEq, Eq)]
pub struct Record {
    pub taken: u32,
    pub rounds: u16,
    pub bits: Vec<u8>,
    pub tally: Vec<u64>,
}

pub(super) fn record(taken: u32, rounds: u16, bits: &[u8], tally: &[u64]) -> Record {
    Record {
        taken,
        rounds,
        bits: bits.to_vec(),
        tally: tally.to_vec(),
    }
}

/// A start with a plan and a record; the number that it returns, and the record as it
/// leaves it.
#[derive(Debug)]
pub struct Start {
    pub plan: Vec<u8>,
    pub given: Record,
    pub number: u32,
    pub left: Record,
}

/// The same for a campaign draw, which asks for a number and lends a buffer.
#[derive(Debug)]
pub struct Draw {
    pub plan: Vec<u8>,
    pub given: Record,
    pub asked: u32,
    pub buffer: Vec<u16>,
    pub number: u32,
    pub left: Record,
    pub result: Vec<u16>,
}

/// `SQUARE`, 01's third example, with a weight too large: it does not open, 6.
fn heavy() -> Vec<u8> {
    changed(SQUARE, &[(16, 2)])
}

/// One cell D over D, below 256, with its one array.
pub(super) fn single(denominator: u8) -> Vec<u8> {
    one_cell(denominator, denominator, denominator, 1)
}

/// One cell 2,049 over D 2,049 with its one array: the bits take 257 bytes.
fn many_numbers() -> Vec<u8> {
    changed(&single(1), &[(9, 8), (17, 8), (25, 8)])
}

/// One cell 257 over D 257 with its one array.
fn some_numbers() -> Vec<u8> {
    changed(&single(1), &[(9, 1), (17, 1), (25, 1)])
}

/// A record of the square campaign before a start.
pub fn any() -> Record {
    record(7, 1001, &[255, 6], &[1, 2, 3, 4, 5])
}

/// After the start.
fn fresh() -> Record {
    record(0, 0, &[0], &[0, 0, 0, 0])
}

/// After draw 0.
fn one() -> Record {
    record(1, 0, &[1], &[0, 1, 1, 0])
}

/// After both draws, which complete the round.
fn both() -> Record {
    record(0, 1, &[0], &[1, 1, 1, 1])
}

/// After 999 rounds.
pub(super) fn late() -> Record {
    record(0, 999, &[0], &[999, 999, 999, 999])
}

/// After draw 0 of the thousandth.
fn last() -> Record {
    record(1, 999, &[1], &[999, 1000, 1000, 999])
}

/// After the thousandth.
fn over() -> Record {
    record(0, 1000, &[0], &[1000, 1000, 1000, 1000])
}

/// One that is too short in bits.
fn no_bits() -> Record {
    record(7, 1001, &[], &[1, 2, 3, 4])
}

/// One that is too short in tally.
fn three_tallied() -> Record {
    record(7, 1001, &[1], &[1, 2, 3])
}

/// One that does not fit.
fn unfit() -> Record {
    record(2, 0, &[1], &[0, 1, 1, 0])
}

fn starts_with(plan: &[u8], given: Record, left: Record) -> Start {
    Start {
        plan: plan.to_vec(),
        given,
        number: 0,
        left,
    }
}

fn refuses_start(number: u32, plan: &[u8], given: Record) -> Start {
    Start {
        number,
        ..starts_with(plan, given.clone(), given)
    }
}

pub fn starts() -> Vec<Start> {
    let (heavy, long) = (heavy(), longer(SQUARE));
    let held = |bits: &[u8]| record(3, 2, bits, &[9]);
    vec![
        // bytes and numbers beyond those needed stay
        starts_with(SQUARE, any(), record(0, 0, &[0, 6], &[0, 0, 0, 0, 5])),
        // the bits of D 7 and 8 take one byte, those of D 9 two
        starts_with(&single(7), held(&[255]), record(0, 0, &[0], &[0])),
        starts_with(&single(8), held(&[255]), record(0, 0, &[0], &[0])),
        starts_with(&single(9), held(&[255, 255]), record(0, 0, &[0, 0], &[0])),
        starts_with(&single(8), held(&[255, 255]), record(0, 0, &[0, 255], &[0])),
        // buffers of 256 numbers, and the largest count and rounds
        starts_with(
            &single(8),
            record(4_294_967_295, 65_535, &[255; 256], &[9; 256]),
            record(
                0,
                0,
                &[&[0][..], &[255; 255]].concat(),
                &[&[0][..], &[9; 255]].concat(),
            ),
        ),
        // the bits of D 2,049 take 257 bytes
        starts_with(
            &many_numbers(),
            held(&[255; 258]),
            record(0, 0, &[&[0; 257][..], &[255]].concat(), &[0]),
        ),
        // 5, 6 and 7 alone
        refuses_start(5, &long, any()),
        refuses_start(6, &heavy, any()),
        refuses_start(7, SQUARE, no_bits()),
        refuses_start(7, SQUARE, three_tallied()),
        refuses_start(7, &single(9), held(&[255])),
        refuses_start(7, &many_numbers(), held(&[255; 256])),
        refuses_start(7, &many_numbers(), held(&[255])),
        // 5 and 6, 5 and 7, 6 and 7
        refuses_start(5, &longer(&heavy), any()),
        refuses_start(5, &long, no_bits()),
        refuses_start(6, &heavy, three_tallied()),
    ]
}

/// What an accepted draw leaves: the record, and the buffer for the array.
type Left<'a> = (Record, &'a [u16]);

fn draws_with(plan: &[u8], given: Record, asked: u32, buffer: &[u16], left: Left) -> Draw {
    Draw {
        plan: plan.to_vec(),
        given,
        asked,
        buffer: buffer.to_vec(),
        number: 0,
        left: left.0,
        result: left.1.to_vec(),
    }
}

fn refuses(number: u32, plan: &[u8], given: Record, asked: u32, buffer: &[u16]) -> Draw {
    Draw {
        number,
        ..draws_with(plan, given.clone(), asked, buffer, (given, buffer))
    }
}

pub fn draws() -> Vec<Draw> {
    [accepted_draws(), refused_draws(), doubly_refused_draws()]
        .into_iter()
        .flatten()
        .collect()
}

fn accepted_draws() -> Vec<Draw> {
    let again = record(1, 1, &[1], &[1, 2, 2, 1]);
    let alone = |rounds| record(0, rounds, &[0], &[u64::from(rounds)]);
    let beyond = record(0, 0, &[0, 6], &[0, 0, 0, 0, 5]);
    let taken_beyond = record(1, 0, &[2, 6], &[1, 0, 0, 1, 5]);
    let round_beyond = record(0, 1, &[0, 6], &[1, 1, 1, 1, 5]);
    let taken = |bits: &[u8]| record(1, 0, bits, &[1]);
    let twice = |bits: &[u8]| -> Left { (record(2, 0, bits, &[2]), &[1]) };
    let eight = record(8, 4, &[255, 0], &[44]);
    let round_of_nine = record(0, 5, &[0, 0], &[45]);
    let none_of_257 = record(0, 0, &[0; 33], &[0]);
    let one_of_257 = record(1, 0, &[&[1][..], &[0; 32]].concat(), &[1]);
    let one_left = record(256, 0, &[&[255; 32][..], &[0]].concat(), &[256]);
    let all_of_257 = record(0, 1, &[0; 33], &[257]);
    let long = |taken: u32, first: u8, tally: [u64; 4]| {
        let bits = [&[first][..], &[6; 255]].concat();
        record(taken, 0, &bits, &[&tally[..], &[5; 252]].concat())
    };
    vec![
        draws_with(SQUARE, fresh(), 0, FIVE, (one(), &[0, 1, 1, 0, 8])),
        // the last free number completes the round; the next round begins, and in it 0 is
        // free again
        draws_with(SQUARE, one(), 1, FOUR, (both(), &[1, 0, 0, 1])),
        draws_with(SQUARE, both(), 0, FOUR, (again, &[0, 1, 1, 0])),
        // over D 1 each draw of 0 is a round
        draws_with(&single(1), alone(0), 0, ONE, (alone(1), &[1])),
        draws_with(&single(1), alone(1), 0, ONE, (alone(2), &[1])),
        // the thousandth round
        draws_with(SQUARE, late(), 0, FOUR, (last(), &[0, 1, 1, 0])),
        draws_with(SQUARE, last(), 1, FOUR, (over(), &[1, 0, 0, 1])),
        // the 256th round; of 257 numbers the first, the 256th and the last, which completes
        // the round; number 2,048 in byte 256
        draws_with(&single(1), alone(255), 0, ONE, (alone(256), &[1])),
        draws_with(&some_numbers(), none_of_257, 0, ONE, (one_of_257, &[1])),
        draws_with(
            &some_numbers(),
            record(255, 0, &[&[255; 31][..], &[127, 0]].concat(), &[255]),
            255,
            ONE,
            (one_left.clone(), &[1]),
        ),
        draws_with(&some_numbers(), one_left, 256, ONE, (all_of_257, &[1])),
        draws_with(
            &many_numbers(),
            record(0, 0, &[0; 257], &[0]),
            2048,
            ONE,
            (record(1, 0, &[&[0; 256][..], &[1]].concat(), &[1]), &[1]),
        ),
        // bytes and numbers beyond those needed stay, and are no part of the record's fit
        draws_with(
            SQUARE,
            beyond,
            1,
            FOUR,
            (taken_beyond.clone(), &[1, 0, 0, 1]),
        ),
        draws_with(SQUARE, taken_beyond, 0, FOUR, (round_beyond, &[0, 1, 1, 0])),
        // buffers of 256 numbers
        draws_with(
            SQUARE,
            long(0, 0, [0, 0, 0, 0]),
            0,
            &[8; 256],
            (
                long(1, 1, [0, 1, 1, 0]),
                &[&[0, 1, 1, 0][..], &[8; 252]].concat(),
            ),
        ),
        // number d in bit d mod 8, lowest first, of byte d / 8; a round frees all of them
        draws_with(&single(7), taken(&[1]), 6, ONE, twice(&[65])),
        draws_with(&single(8), taken(&[1]), 7, ONE, twice(&[129])),
        draws_with(&single(9), taken(&[1, 0]), 8, ONE, twice(&[1, 1])),
        draws_with(&single(9), taken(&[8, 0]), 1, ONE, twice(&[10, 0])),
        draws_with(&single(9), eight, 8, ONE, (round_of_nine, &[1])),
    ]
}

fn refused_draws() -> Vec<Draw> {
    let after_zero = |taken, rounds, tally: [u64; 4]| record(taken, rounds, &[1], &tally);
    vec![
        // 5, 6, 7 (bits, tally, array), 8, 13 and 10 alone
        refuses(5, &longer(SQUARE), fresh(), 0, FOUR),
        refuses(6, &heavy(), fresh(), 0, FOUR),
        refuses(7, SQUARE, record(0, 0, &[], &[0, 0, 0, 0]), 0, FOUR),
        refuses(7, SQUARE, record(0, 0, &[0], &[0, 0, 0]), 0, FOUR),
        refuses(7, &single(9), record(0, 0, &[0], &[0]), 0, ONE),
        refuses(7, SQUARE, fresh(), 0, THREE),
        refuses(8, SQUARE, one(), 2, FOUR),
        refuses(13, SQUARE, over(), 0, FOUR),
        refuses(10, SQUARE, one(), 0, FOUR),
        refuses(10, SQUARE, last(), 0, FOUR),
        // 7: 256 bytes where 257 are needed, and one; 8: numbers of which only the low part
        // is below D
        refuses(7, &many_numbers(), record(0, 0, &[0; 256], &[0]), 0, ONE),
        refuses(7, &many_numbers(), record(0, 0, &[0], &[0]), 0, ONE),
        refuses(8, SQUARE, fresh(), 256, FOUR),
        refuses(8, SQUARE, fresh(), 65_536, FOUR),
        refuses(8, SQUARE, fresh(), 16_777_216, FOUR),
        refuses(8, SQUARE, fresh(), 2_147_483_648, FOUR),
        refuses(8, SQUARE, fresh(), 4_294_967_295, FOUR),
        // 9: the count, the tally, a spare bit
        refuses(9, SQUARE, unfit(), 1, FOUR),
        refuses(9, SQUARE, record(1, 0, &[1], &[0, 1, 1, 1]), 1, FOUR),
        refuses(9, SQUARE, record(1, 0, &[5], &[0, 1, 1, 0]), 1, FOUR),
        refuses(9, &single(7), record(0, 0, &[128], &[0]), 0, ONE),
        refuses(9, &single(9), record(0, 0, &[0, 2], &[0]), 0, ONE),
        // 9: a count, rounds and a tally of which only the low part is right
        refuses(9, SQUARE, after_zero(257, 0, [0, 1, 1, 0]), 1, FOUR),
        refuses(9, SQUARE, after_zero(65_537, 0, [0, 1, 1, 0]), 1, FOUR),
        refuses(
            9,
            SQUARE,
            after_zero(2_147_483_649, 0, [0, 1, 1, 0]),
            1,
            FOUR,
        ),
        refuses(9, SQUARE, after_zero(1, 256, [0, 1, 1, 0]), 1, FOUR),
        refuses(9, SQUARE, after_zero(1, 32_768, [0, 1, 1, 0]), 1, FOUR),
        refuses(9, SQUARE, after_zero(1, 0, [256, 1, 1, 0]), 1, FOUR),
        refuses(9, SQUARE, after_zero(1, 0, [0, 65_537, 1, 0]), 1, FOUR),
        refuses(
            9,
            SQUARE,
            after_zero(1, 0, [0, 1, 4_294_967_297, 0]),
            1,
            FOUR,
        ),
        refuses(
            9,
            SQUARE,
            after_zero(1, 0, [0, 1, 1, 4_294_967_296]),
            1,
            FOUR,
        ),
        // 9: more than 1,000 rounds, no number free, a number taken after 1,000 rounds, a
        // tally without the rounds' part or with a round too many
        refuses(9, SQUARE, record(0, 1001, &[0], &[1001; 4]), 0, FOUR),
        refuses(9, SQUARE, record(2, 0, &[3], &[1, 1, 1, 1]), 0, FOUR),
        refuses(9, SQUARE, taken_when_over(), 1, FOUR),
        refuses(9, SQUARE, record(1, 1, &[1], &[0, 1, 1, 0]), 1, FOUR),
        refuses(9, SQUARE, record(0, 0, &[0], &[1, 1, 1, 1]), 1, FOUR),
    ]
}

/// One with a number taken after the thousandth round.
fn taken_when_over() -> Record {
    record(1, 1000, &[1], &[1000, 1001, 1001, 1000])
}

fn doubly_refused_draws() -> Vec<Draw> {
    let (heavy, long) = (heavy(), longer(SQUARE));
    let untallied = record(0, 1000, &[0], &[0, 0, 0, 0]);
    vec![
        // 5 with 6, 7, 8, 9, 13 and 10
        refuses(5, &longer(&heavy), fresh(), 0, FOUR),
        refuses(5, &long, fresh(), 0, THREE),
        refuses(5, &long, fresh(), 2, FOUR),
        refuses(5, &long, unfit(), 1, FOUR),
        refuses(5, &long, over(), 0, FOUR),
        refuses(5, &long, one(), 0, FOUR),
        // 6 with 7, 8, 9, 13 and 10
        refuses(6, &heavy, fresh(), 0, THREE),
        refuses(6, &heavy, fresh(), 3, FOUR),
        refuses(6, &heavy, unfit(), 1, FOUR),
        refuses(6, &heavy, over(), 0, FOUR),
        refuses(6, &heavy, one(), 0, FOUR),
        // 7 with 8, 9, 13 and 10
        refuses(7, SQUARE, fresh(), 2, THREE),
        refuses(7, SQUARE, unfit(), 1, THREE),
        refuses(7, SQUARE, over(), 0, THREE),
        refuses(7, SQUARE, one(), 0, THREE),
        // 8 with 9 and 13, 9 with 13 and 10, and all three of these
        refuses(8, SQUARE, unfit(), 2, FOUR),
        refuses(8, SQUARE, over(), 2, FOUR),
        refuses(9, SQUARE, untallied, 0, FOUR),
        refuses(9, SQUARE, unfit(), 0, FOUR),
        refuses(9, SQUARE, taken_when_over(), 0, FOUR),
    ]
}
