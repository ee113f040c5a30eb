//! The call that pools two tables of one size (02, F-1). Its refusals are those of either
//! table, then two of its own, then that of a short buffer.

use crate::parts::write_numbers;
use crate::{Refusal, Table};

/// The pool call: writes the pooled table's denominator and its cells.
#[allow(clippy::too_many_arguments)]
pub fn pool(
    rows: u32,
    columns: u32,
    first_denominator: u32,
    first: &[u32],
    second_denominator: u32,
    second: &[u32],
    denominator: &mut [u32],
    cells: &mut [u32],
) -> Result<(), Refusal> {
    let first = Table::accept(rows, columns, first_denominator, first);
    let second = Table::accept(rows, columns, second_denominator, second);
    let pooled = pooled(&both(first, second)?)?;
    if denominator.is_empty() || cells.len() < pooled.size() {
        return Err(Refusal::ShortBuffer);
    }
    write_numbers(&[pooled.denominator], denominator)?;
    write_numbers(&pooled.cells, cells)
}

/// Both tables, or the lowest of the refusals 1 to 4 that applies to either.
fn both(
    first: Result<Table, Refusal>,
    second: Result<Table, Refusal>,
) -> Result<[Table; 2], Refusal> {
    match (first, second) {
        (Ok(first), Ok(second)) => Ok([first, second]),
        (Err(one), Err(other)) if other.number() < one.number() => Err(other),
        (Err(refusal), _) | (_, Err(refusal)) => Err(refusal),
    }
}

/// The pooled table: each of its expected counts is the sum of the two tables'.
fn pooled([first, second]: &[Table; 2]) -> Result<Table, Refusal> {
    let multiple = least_common_multiple(first.denominator, second.denominator);
    if !Table::DENOMINATORS.contains(&multiple) {
        return Err(Refusal::Multiple);
    }
    let sum = |(&one, &other)| {
        let expected = [(one, first.denominator), (other, second.denominator)];
        sum_over(multiple, expected)
    };
    let table = Table {
        denominator: multiple,
        cells: first.cells.iter().zip(&second.cells).map(sum).collect(),
        ..*first
    };
    if !table.cells_within_bound() {
        return Err(Refusal::PooledCell);
    }
    Ok(table)
}

/// The least number that both divide. The multiples of the larger are tried in turn.
pub fn least_common_multiple(one: u64, other: u64) -> u64 {
    let (larger, smaller) = (one.max(other), one.min(other));
    (1..)
        .map(|times| times * larger)
        .find(|multiple| multiple % smaller == 0)
        .expect("their product is a multiple of both")
}

/// Two fractions added up, in multiples of 1 / `multiple`, of which the sum is a whole
/// number.
fn sum_over(multiple: u64, [(one, of_one), (other, of_other)]: [(u64, u64); 2]) -> u64 {
    let numerator = (one * of_other + other * of_one) * multiple;
    let denominator = of_one * of_other;
    let sum = numerator / denominator;
    assert_eq!(sum * denominator, numerator, "the sum is a whole number");
    sum
}

#[cfg(test)]
mod tests {
    use super::*;

    /// A table without its size: the denominator and the cells.
    type Part = (u32, &'static [u32]);

    /// Pools into buffers of these lengths. What is refused leaves them as they were.
    fn pooled_into(
        (rows, columns): (u32, u32),
        [first, second]: [Part; 2],
        rooms: [usize; 2],
    ) -> Result<[Vec<u32>; 2], u32> {
        let [mut denominator, mut cells] = rooms.map(|room| vec![8; room]);
        let answer = pool(
            rows,
            columns,
            first.0,
            first.1,
            second.0,
            second.1,
            &mut denominator,
            &mut cells,
        );
        let left = [denominator, cells];
        if answer.is_err() {
            assert_eq!(left, rooms.map(|room| vec![8; room]));
        }
        answer.map(|()| left).map_err(Refusal::number)
    }

    /// The refusal of two parts, whichever comes first, with room for the result.
    fn refusal(size: (u32, u32), [one, other]: [Part; 2]) -> Option<u32> {
        let found = pooled_into(size, [one, other], [1, 4]).err();
        assert_eq!(pooled_into(size, [other, one], [1, 4]).err(), found);
        found
    }

    #[test]
    fn the_least_common_multiple_is_the_least_number_that_both_divide() {
        for one in 1..60 {
            for other in 1..60 {
                let least = (1..).find(|number| number % one == 0 && number % other == 0);
                assert_eq!(Some(least_common_multiple(one, other)), least);
            }
        }
        assert_eq!(least_common_multiple(65_535, 65_534), 65_535 * 65_534);
    }

    #[test]
    fn fractions_are_added_up() {
        assert_eq!(sum_over(20, [(3, 10), (1, 4)]), 11);
        assert_eq!(sum_over(12, [(2, 3), (5, 12)]), 13);
        let most = (65_535_000, 65_535);
        assert_eq!(sum_over(65_535, [most, most]), 2 * 65_535_000);
    }

    #[test]
    #[should_panic(expected = "the sum is a whole number")]
    fn a_sum_that_is_not_whole_is_noticed() {
        sum_over(10, [(3, 10), (1, 4)]);
    }

    #[test]
    fn cells_are_pooled_one_by_one_and_what_lies_beyond_stays() {
        let parts: [Part; 2] = [(10, &[3, 4, 5, 6]), (4, &[1, 0, 2, 4])];
        let found = pooled_into((2, 2), parts, [2, 5]);
        assert_eq!(found, Ok([vec![20, 8], vec![11, 8, 20, 32, 8]]));
    }

    #[test]
    fn the_lowest_refusal_of_either_part_is_returned() {
        let good: Part = (7, &[1, 2]);
        let zero: Part = (0, &[1, 2]);
        let few: Part = (7, &[7001]);
        let large: Part = (7, &[7001, 0]);
        assert_eq!(refusal((1, 2), [good, good]), None);
        for part in [good, zero, few, large] {
            assert_eq!(refusal((1, 13), [good, part]), Some(1));
            assert_eq!(refusal((0, 2), [large, part]), Some(1));
            assert_eq!(refusal((1, 2), [zero, part]), Some(2));
        }
        for part in [good, few, large] {
            assert_eq!(refusal((1, 2), [few, part]), Some(3));
        }
        for part in [good, large] {
            assert_eq!(refusal((1, 2), [large, part]), Some(4));
        }
    }

    #[test]
    fn the_multiple_is_at_most_65_535() {
        let of = |one, other| refusal((1, 1), [(one, &[0]), (other, &[0])]);
        assert_eq!(of(255, 257), None);
        assert_eq!(of(3, 65_535), None);
        assert_eq!(of(256, 257), Some(11));
        assert_eq!(of(65_534, 65_535), Some(11));
    }

    #[test]
    fn a_pooled_cell_is_at_most_1000_times_the_multiple() {
        let most: Part = (3, &[0, 1800]);
        let more: Part = (3, &[0, 1801]);
        assert_eq!(refusal((1, 2), [(1, &[0, 400]), most]), None);
        assert_eq!(refusal((1, 2), [(1, &[0, 400]), more]), Some(12));
        assert_eq!(refusal((1, 1), [(2, &[2000]), (5, &[1])]), Some(12));
    }

    #[test]
    fn the_multiple_is_tested_first_then_the_cells_then_the_buffers() {
        let one: Part = (256, &[9]);
        let other: Part = (257, &[9]);
        let large: Part = (256, &[256_000]);
        let other_large: Part = (257, &[257_000]);
        for rooms in [[1, 1], [0, 1], [1, 0]] {
            let answer = |parts| pooled_into((1, 1), parts, rooms).err();
            assert_eq!(answer([one, other]), Some(11));
            assert_eq!(answer([large, other_large]), Some(11));
            assert_eq!(answer([large, one]), Some(12));
            assert_eq!(answer([one, one]), (rooms != [1, 1]).then_some(7));
        }
    }
}
