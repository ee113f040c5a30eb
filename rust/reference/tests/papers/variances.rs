//! Variances and covariances: what 02 says of them, and what the program prints.

use crate::literal::assert_rows;
use crate::samples::{accepted, stated_plan};
use reference::{covariance, encode, entries, open, plan_of, plan_variances, variances, Plan};
use std::io::{BufRead, BufReader, Read, Write};
use std::process::{Child, Command, Stdio};
use tables::literal::variances::{outputs, LISTING};
use tables::papers::{self, Example};
use tables::{random_table, Generator, GivenTable};

/// The three numerators of a plan that opens.
fn numerators(plan: &Plan) -> [i64; 3] {
    let mut found = [0; 3];
    assert_eq!(variances(&encode(plan), &mut found), Ok(()));
    found
}

#[test]
fn plans_that_the_papers_state() {
    let of = |example: Example| numerators(&stated_plan(example));
    assert_eq!(of(papers::listing()), [94, -24, 20]);
    assert_eq!(of(papers::one_cell()), [2, 0, 0]);
    assert_eq!(of(papers::four_halves()), [4, -1, 1]);
    assert_eq!(of(papers::one_row()), [4, 0, 0]);
    assert_eq!(of(papers::document_001()), [48, -6, 6]);
    assert_eq!(of(papers::problem_2_1_common()), [186, -15, 25]);
    assert_eq!(of(papers::problem_2_1_method_3()), [186, -15, 15]);
}

/// Both plans of one table: the variances of its cells are the table's alone, and
/// covariances are not.
#[test]
fn another_plan_of_a_table_has_the_same_variances() {
    let of = |example: Example| numerators(&stated_plan(example));
    let (common, method_3) = (papers::problem_2_1_common(), papers::problem_2_1_method_3());
    let (common, method_3) = (of(common), of(method_3));
    assert_eq!(common[0], method_3[0]);
    assert_ne!(common[2], method_3[2]);
}

/// f·(D − f), where f is the remainder of an entry by D.
fn by_remainder(entry: u64, denominator: u64) -> i128 {
    let remainder = entry % denominator;
    i128::from(remainder * (denominator - remainder))
}

/// The variance of an entry, from its counts in the arrays.
fn variance_of_sums(plan: &Plan, entry: usize) -> i128 {
    let table = &plan.table;
    let entry_of = |cells: &[u64]| i128::from(entries(table.rows, table.columns, cells)[entry]);
    let denominator = i128::from(table.denominator);
    let mut sum = 0;
    for array in &plan.arrays {
        let count = entry_of(&array.counts);
        sum += i128::from(array.weight) * count * count;
    }
    denominator * sum - entry_of(&table.cells) * entry_of(&table.cells)
}

/// The covariances of all ordered pairs of these cells, a cell with itself included.
fn over_ordered_pairs(plan: &Plan, cells: &[usize]) -> i128 {
    let of = |&a: &usize| {
        cells
            .iter()
            .map(move |&b| covariance(plan, a, b))
            .sum::<i128>()
    };
    cells.iter().map(of).sum()
}

/// What 02 says of each cell and each row. It holds of columns and the whole too.
fn assert_said(plan: &Plan) {
    let table = &plan.table;
    let (rows, columns, size) = (table.rows, table.columns, table.size());
    let cells = |start: usize, step: usize, count: usize| -> Vec<usize> {
        (0..count).map(|place| start + step * place).collect()
    };
    let mut parts: Vec<Vec<usize>> = (0..size).map(|cell| vec![cell]).collect();
    parts.extend((0..rows).map(|row| cells(row * columns, 1, columns)));
    parts.extend((0..columns).map(|column| cells(column, columns, rows)));
    parts.push(cells(0, 1, size));
    let of_table = entries(rows, columns, &table.cells);
    for (entry, part) in parts.iter().enumerate() {
        let said = by_remainder(of_table[entry], table.denominator);
        assert_eq!(
            over_ordered_pairs(plan, part),
            said,
            "entry {entry}: {plan:?}"
        );
        assert_eq!(
            variance_of_sums(plan, entry),
            said,
            "entry {entry}: {plan:?}"
        );
    }
    let of_cells = (0..size).map(|cell| by_remainder(table.cells[cell], table.denominator));
    let [sum, smallest, largest] = numerators(plan).map(i128::from);
    assert_eq!(sum, of_cells.sum());
    assert!(smallest <= largest);
}

#[test]
fn variances_are_those_of_remainders() {
    for example in [
        papers::listing(),
        papers::document_001(),
        papers::problem_2_1_common(),
        papers::problem_2_1_method_3(),
    ] {
        assert_said(&stated_plan(example));
    }
    for given in [papers::document_002(), papers::problem_2_4()] {
        assert_said(&plan_of(&accepted(&given)));
    }
    let mut generator = Generator::new(41);
    for _ in 0..300 {
        assert_said(&plan_of(&accepted(&random_table(&mut generator, 4))));
    }
}

#[test]
fn the_largest_sum_of_variances() {
    let table = accepted(&GivenTable::uniform(12, 12, 65_535, 32_767));
    let [sum, smallest, largest] = numerators(&plan_of(&table));
    assert_eq!(sum, 144 * 32_767 * 32_768);
    assert_eq!([smallest, largest], [-32_767 * 32_767, 32_767 * 32_768]);
}

#[test]
fn literal_inputs_are_printed() {
    assert_rows(&outputs(), |row| {
        (plan_variances(&row.input), row.prints.to_string())
    });
}

#[test]
fn an_input_that_is_cut_ends_with_5_but_between_plans() {
    let one_cell = encode(&stated_plan(papers::one_cell()));
    let input = [&one_cell[..], LISTING, &one_cell].concat();
    let lines = ["1 2 0 0\n", "2 94 -24 20\n", "3 2 0 0\n"];
    let ends = [
        0,
        one_cell.len(),
        one_cell.len() + LISTING.len(),
        input.len(),
    ];
    for length in 0..=input.len() {
        let whole = ends.iter().filter(|&&end| 0 < end && end <= length).count();
        let refused = if ends.contains(&length) {
            ""
        } else {
            "refused 5\n"
        };
        let expected = lines[..whole].concat() + refused;
        assert_eq!(plan_variances(&input[..length]), expected, "{length} bytes");
    }
}

#[test]
fn every_head_that_does_not_open_is_refused_by_5() {
    for place in 0..8 {
        for byte in 0..=255 {
            let mut input = LISTING.to_vec();
            input[place] = byte;
            // what follows is long enough for every head
            input.resize(60_000, 0);
            let expected = match open(&input[..LISTING.len()]) {
                Ok(_) => "1 94 -24 20\nrefused 5\n",
                Err(_) => "refused 5\n",
            };
            assert_eq!(plan_variances(&input), expected, "byte {place}: {byte}");
        }
    }
}

/// A run of the program.
fn started() -> Child {
    Command::new(env!("CARGO_BIN_EXE_reference_plan_variances"))
        .stdin(Stdio::piped())
        .stdout(Stdio::piped())
        .spawn()
        .expect("the program starts")
}

#[test]
fn the_program_prints_a_line_as_soon_as_there_is_a_plan() {
    let mut program = started();
    let mut stdin = program.stdin.take().expect("standard input is piped");
    let mut stdout = BufReader::new(program.stdout.take().expect("standard output is piped"));
    for number in 1..=3 {
        let (begin, end) = LISTING.split_at(number * 7);
        stdin.write_all(begin).expect("the program reads");
        stdin.write_all(end).expect("the program reads");
        let mut line = String::new();
        stdout.read_line(&mut line).expect("the program writes");
        assert_eq!(line, format!("{number} 94 -24 20\n"));
    }
    stdin.write_all(&LISTING[..9]).expect("the program reads");
    drop(stdin);
    let mut rest = String::new();
    stdout.read_to_string(&mut rest).expect("the program ends");
    assert_eq!(rest, "refused 5\n");
    assert!(program.wait().expect("it ends").success());
}
