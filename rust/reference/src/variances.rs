//! Exact variances and covariances of a plan's cells (02, F-4), as numerators over D·D: a
//! call on one stored plan, and the program that reads stored plans one after another.

use crate::stored::{length_by_head, HEAD};
use crate::{open, Plan, Refusal};
use std::io::{self, Read, Write};

/// The covariance of two cells, given by their places: D times the weighted sum of the
/// products of their counts, minus the product of their table cells. A cell's variance is
/// its covariance with itself.
pub fn covariance(plan: &Plan, a: usize, b: usize) -> i128 {
    let mut sum = 0;
    for array in &plan.arrays {
        let product = i128::from(array.counts[a]) * i128::from(array.counts[b]);
        sum += i128::from(array.weight) * product;
    }
    let of_table = i128::from(plan.table.cells[a]) * i128::from(plan.table.cells[b]);
    i128::from(plan.table.denominator) * sum - of_table
}

/// The sum of all cell variances, and the smallest and the largest covariance of two
/// different cells; 0 and 0 if there is one cell.
fn numerators(plan: &Plan) -> [i64; 3] {
    let mut variances = 0;
    let mut covariances = Vec::new();
    for a in 0..plan.table.size() {
        variances += covariance(plan, a, a);
        for b in 0..a {
            covariances.push(covariance(plan, a, b));
        }
    }
    let smallest = covariances.iter().min().copied().unwrap_or(0);
    let largest = covariances.iter().max().copied().unwrap_or(0);
    [variances, smallest, largest]
        .map(|number| i64::try_from(number).expect("a numerator has at most 64 bits"))
}

/// The variances call: writes the three numerators.
pub fn variances(bytes: &[u8], buffer: &mut [i64]) -> Result<(), Refusal> {
    let found = numerators(&open(bytes)?);
    if buffer.len() < found.len() {
        return Err(Refusal::ShortBuffer);
    }
    buffer[..found.len()].copy_from_slice(&found);
    Ok(())
}

/// What the variance program prints for this input.
pub fn plan_variances(mut input: &[u8]) -> String {
    let mut output = Vec::new();
    write_variances(&mut input, &mut output).expect("reading and writing memory succeeds");
    String::from_utf8(output).expect("digits, spaces, minus signs and line ends")
}

/// The variance program: reads stored plans one after another and writes a line for each
/// as it goes. It ends with the input, or at the first plan that is refused.
pub fn write_variances(input: &mut impl Read, output: &mut impl Write) -> io::Result<()> {
    for number in 1u64.. {
        let bytes = next_plan(input)?;
        if bytes.is_empty() {
            break;
        }
        let opened = open(&bytes);
        match &opened {
            Ok(plan) => {
                let [variances, smallest, largest] = numerators(plan);
                writeln!(output, "{number} {variances} {smallest} {largest}")?;
            }
            Err(refusal) => writeln!(output, "refused {}", refusal.number())?,
        }
        output.flush()?;
        if opened.is_err() {
            break;
        }
    }
    Ok(())
}

/// The bytes of the next plan, as far as there are any, or no bytes at the end of the
/// input. Where the head is short or wrong there is only the head, and so no plan opens.
fn next_plan(input: &mut impl Read) -> io::Result<Vec<u8>> {
    let mut bytes = Vec::new();
    input.take(HEAD as u64).read_to_end(&mut bytes)?;
    if let Some(length) = length_by_head(&bytes) {
        let rest = length - HEAD;
        input.take(rest as u64).read_to_end(&mut bytes)?;
    }
    Ok(bytes)
}

#[cfg(test)]
mod tests {
    use super::*;
    use crate::Table;

    /// 01's listing.
    fn listing() -> Plan {
        let table = Table::accept(2, 2, 10, &[3, 4, 5, 6]).expect("accepted");
        let arrays = [
            (2, [0, 0, 0, 1]),
            (1, [0, 0, 1, 1]),
            (4, [0, 1, 1, 0]),
            (3, [1, 0, 0, 1]),
        ];
        Plan::new(table, arrays)
    }

    #[test]
    fn covariances_of_the_listing() {
        let by_hand = [
            [21, -12, -15, 12],
            [-12, 24, 20, -24],
            [-15, 20, 25, -20],
            [12, -24, -20, 24],
        ];
        for (a, row) in by_hand.iter().enumerate() {
            for (b, &number) in row.iter().enumerate() {
                assert_eq!(covariance(&listing(), a, b), number, "cells {a} and {b}");
            }
        }
        assert_eq!(numerators(&listing()), [94, -24, 20]);
    }

    #[test]
    fn a_whole_part_does_not_matter() {
        let mut plan = listing();
        for cell in &mut plan.table.cells {
            *cell += 70;
        }
        for count in plan.arrays.iter_mut().flat_map(|array| &mut array.counts) {
            *count += 7;
        }
        assert_eq!(numerators(&plan), [94, -24, 20]);
    }

    #[test]
    fn the_largest_covariance_may_be_negative() {
        let table = Table::accept(1, 2, 10, &[3, 4]).expect("accepted");
        let plan = Plan::new(table, [(3, [0, 0]), (4, [0, 1]), (3, [1, 0])]);
        assert_eq!(numerators(&plan), [45, -12, -12]);
    }

    #[test]
    fn one_cell_has_no_covariance() {
        let table = Table::accept(1, 1, 3, &[2]).expect("accepted");
        assert_eq!(
            numerators(&Plan::new(table, [(1, [0]), (2, [1])])),
            [2, 0, 0]
        );
    }

    #[test]
    fn counts_of_1000_over_the_largest_denominator() {
        let whole = 1000 * 65_535;
        let table = Table::accept(1, 2, 65_535, &[whole, whole]).expect("accepted");
        let plan = Plan::new(table, [(65_535, [1000, 1000])]);
        assert_eq!(numerators(&plan), [0, 0, 0]);
    }
}
