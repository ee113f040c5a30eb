use crate::rounding::write_counts;
use crate::{open, Plan, Refusal};

/// How many rounds a campaign has.
pub const ROUNDS: u16 = 1000;

/// The start call: sets count, rounds, bits and tally of the record to zero.
pub fn start(
    bytes: &[u8],
    taken: &mut u32,
    rounds: &mut u16,
    bits: &mut [u8],
    tally: &mut [u64],
) -> Result<(), Refusal> {
    let plan = open(bytes)?;
    require_record_room(&plan, bits, tally)?;
    *taken = 0;
    *rounds = 0;
    bits[..bytes_of_bits(plan.table.denominator)].fill(0);
    tally[..plan.table.size()].fill(0);
    Ok(())
}

/// The campaign draw call: takes the number, writes its array and adds it to the tally.
/// With the last free number the round is complete, and the next one begins.
pub fn campaign_draw(
    bytes: &[u8],
    number: u32,
    taken: &mut u32,
    rounds: &mut u16,
    bits: &mut [u8],
    tally: &mut [u64],
    counts: &mut [u16],
) -> Result<(), Refusal> {
    let plan = open(bytes)?;
    require_record_room(&plan, bits, tally)?;
    if counts.len() < plan.table.size() {
        return Err(Refusal::ShortBuffer);
    }
    let number = u64::from(number);
    if number >= plan.table.denominator {
        return Err(Refusal::DrawNumber);
    }
    if !record_fits(&plan, *taken, *rounds, bits, tally) {
        return Err(Refusal::Record);
    }
    if *rounds == ROUNDS {
        return Err(Refusal::Rounds);
    }
    if is_set(bits, number) {
        return Err(Refusal::Taken);
    }
    let array = &plan.array_of(number).counts;
    *taken += 1;
    bits[(number / 8) as usize] |= 1 << (number % 8);
    for (sum, count) in tally.iter_mut().zip(array) {
        *sum += count;
    }
    write_counts(array, counts);
    if free_numbers(&plan, bits).is_empty() {
        *rounds += 1;
        *taken = 0;
        bits[..bytes_of_bits(plan.table.denominator)].fill(0);
    }
    Ok(())
}

/// The bytes that hold one bit for each draw number.
pub fn bytes_of_bits(denominator: u64) -> usize {
    denominator.div_ceil(8) as usize
}

fn require_record_room(plan: &Plan, bits: &[u8], tally: &[u64]) -> Result<(), Refusal> {
    if bits.len() < bytes_of_bits(plan.table.denominator) || tally.len() < plan.table.size() {
        return Err(Refusal::ShortBuffer);
    }
    Ok(())
}

fn is_set(bits: &[u8], number: u64) -> bool {
    bits[(number / 8) as usize] >> (number % 8) & 1 == 1
}

fn taken_numbers(plan: &Plan, bits: &[u8]) -> Vec<u64> {
    let all = 0..plan.table.denominator;
    all.filter(|&number| is_set(bits, number)).collect()
}

fn free_numbers(plan: &Plan, bits: &[u8]) -> Vec<u64> {
    let all = 0..plan.table.denominator;
    all.filter(|&number| !is_set(bits, number)).collect()
}

/// Whether spare bits are zero, the count is the number of set bits, there are at most
/// 1,000 rounds, a number is free, after the last round every number, and the tally is
/// what the rounds and the numbers taken in this one have drawn.
fn record_fits(plan: &Plan, taken: u32, rounds: u16, bits: &[u8], tally: &[u64]) -> bool {
    let denominator = plan.table.denominator;
    let end = 8 * bytes_of_bits(denominator) as u64;
    let spare_bits_zero = (denominator..end).all(|number| !is_set(bits, number));
    let in_this_round = taken_numbers(plan, bits);
    spare_bits_zero
        && u64::from(taken) == in_this_round.len() as u64
        && rounds <= ROUNDS
        && !free_numbers(plan, bits).is_empty()
        && (rounds < ROUNDS || in_this_round.is_empty())
        && tally[..plan.table.size()] == tally_after(plan, rounds, &in_this_round)
}

/// What so many rounds, and these numbers of the next one, have drawn.
fn tally_after(plan: &Plan, rounds: u16, numbers: &[u64]) -> Vec<u64> {
    let in_rounds = |cell: &u64| u64::from(rounds) * cell;
    let mut sums: Vec<u64> = plan.table.cells.iter().map(in_rounds).collect();
    for &number in numbers {
        for (sum, count) in sums.iter_mut().zip(&plan.array_of(number).counts) {
            *sum += count;
        }
    }
    sums
}
