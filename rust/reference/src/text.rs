//! The text that the printing program reads and prints.

use crate::{plan_of, Plan, Table};

/// The most bytes that the printing program accepts.
pub const LONGEST_INPUT: usize = 4096;

/// What the printing program prints for this input.
pub fn print_plan(input: &[u8]) -> String {
    let Some(numbers) = read_numbers(input) else {
        return "refused text\n".to_string();
    };
    match Table::accept(numbers[0], numbers[1], numbers[2], &numbers[3..]) {
        Err(refusal) => format!("refused {}\n", refusal.number()),
        Ok(table) => listing(&plan_of(&table)),
    }
}

/// The numbers of the input, at least three, or nothing if the text is refused.
fn read_numbers(input: &[u8]) -> Option<Vec<u32>> {
    let is_known = |byte: &u8| byte.is_ascii_digit() || is_separator(byte);
    if input.len() > LONGEST_INPUT || !input.iter().all(is_known) {
        return None;
    }
    let numbers: Option<Vec<u32>> = input
        .split(is_separator)
        .filter(|digits| !digits.is_empty())
        .map(read_number)
        .collect();
    numbers.filter(|numbers| numbers.len() >= 3)
}

fn is_separator(byte: &u8) -> bool {
    *byte == b' ' || *byte == 10
}

/// The number in base ten, or nothing if it is above 4,294,967,295.
fn read_number(digits: &[u8]) -> Option<u32> {
    digits.iter().try_fold(0u32, |value, &digit| {
        value.checked_mul(10)?.checked_add(u32::from(digit - b'0'))
    })
}

/// A line with rows, columns, denominator and number of arrays, then a line an array.
fn listing(plan: &Plan) -> String {
    let table = &plan.table;
    let head = [
        table.rows as u64,
        table.columns as u64,
        table.denominator,
        plan.arrays.len() as u64,
    ];
    let mut text = line(&head);
    for array in &plan.arrays {
        text += &line(&[&[array.weight], &array.counts[..]].concat());
    }
    text
}

fn line(numbers: &[u64]) -> String {
    let words: Vec<String> = numbers.iter().map(u64::to_string).collect();
    words.join(" ") + "\n"
}

#[cfg(test)]
mod tests {
    use super::{line, read_numbers};
    use tables::literal::numbered;
    use tables::literal::text::{parses, NUMERALS};

    #[test]
    fn literal_texts_are_read_or_refused() {
        for (number, row) in numbered(&parses()) {
            let found = read_numbers(&row.text);
            assert_eq!(found, row.numbers, "row {number}: {row:?}");
        }
    }

    #[test]
    fn literal_numbers_are_written() {
        for (number, row) in numbered(NUMERALS) {
            let (value, digits) = *row;
            let found = line(&[value]);
            assert_eq!(found, digits.to_string() + "\n", "row {number}: {row:?}");
        }
    }
}
