//! The printing program, run on texts.

mod literal;

use compare::cases::{require, Call, Calls, Difference, Kind, Named};
use std::io::Write;
use std::process::{Command, Stdio};
use tables::{random_table, Generator};

pub const KINDS: &[Kind] = &[
    Kind {
        name: "print-tables",
        cases: 150,
        compare: tables_as_text,
    },
    Kind {
        name: "print-texts",
        cases: 400,
        compare: random_text,
    },
];

pub const NAMED: &[Named] = &[
    Named {
        name: "print-refused-texts",
        compare: refused_texts,
    },
    Named {
        name: "print-accepted-texts",
        compare: accepted_texts,
    },
    Named {
        name: "print-longest-texts",
        compare: longest_texts,
    },
    Named {
        name: "print-literal",
        compare: literal::outputs,
    },
    Named {
        name: "print-literal-texts",
        compare: literal::texts,
    },
];

/// A run of the program.
#[derive(Clone, Debug, PartialEq)]
struct Print {
    input: Vec<u8>,
    output: Vec<u8>,
}

impl Call for Print {
    fn reference(&mut self) -> u32 {
        self.output = reference::print_plan(&self.input).into_bytes();
        0
    }

    fn library(&mut self) -> u32 {
        self.output = run_program(&self.input);
        0
    }
}

/// What `print_plan` writes. It may stop reading before the end of a long input.
fn run_program(input: &[u8]) -> Vec<u8> {
    let program = concat!(env!("CARGO_MANIFEST_DIR"), "/../../target/bin/print_plan");
    let mut run = Command::new(program)
        .stdin(Stdio::piped())
        .stdout(Stdio::piped())
        .spawn()
        .expect("print_plan is built");
    let mut lent = run.stdin.take().expect("its input is a pipe");
    let _ = lent.write_all(input);
    drop(lent);
    run.wait_with_output().expect("it ends").stdout
}

fn compare_text(calls: &mut Calls, input: &[u8]) -> Result<Print, Difference> {
    let print = Print {
        input: input.to_vec(),
        output: Vec::new(),
    };
    Ok(calls.compare(&print)?.after)
}

/// Compares texts that are all refused, or all planned.
fn compare_texts(calls: &mut Calls, texts: &[&[u8]], refused: bool) -> Result<(), Difference> {
    for text in texts {
        let print = compare_text(calls, text)?;
        require(print.output.starts_with(b"refused ") == refused, || {
            format!("refused should be {refused}: {print:?}\n")
        })?;
    }
    Ok(())
}

/// A random table with random gaps between its numbers, at times one number short.
fn tables_as_text(generator: &mut Generator, calls: &mut Calls) -> Result<(), Difference> {
    let table = random_table(generator, 12);
    let mut numbers = vec![table.rows, table.columns, table.denominator];
    numbers.extend(&table.cells);
    if generator.below(8) == 0 {
        numbers.pop();
    }
    let mut text = Vec::new();
    for number in numbers {
        text.extend(number.to_string().bytes());
        text.push(if generator.below(5) == 0 { 10 } else { 32 });
    }
    compare_text(calls, &text).map(drop)
}

/// A text of few bytes, mostly digits and gaps.
fn random_text(generator: &mut Generator, calls: &mut Calls) -> Result<(), Difference> {
    const BYTES: &[u8] = b"0011223456789     \n\n-\t\r\0a";
    let odd = generator.below(3) == 0;
    let known = if odd { BYTES.len() } else { BYTES.len() - 5 };
    let length = generator.below(30);
    let text: Vec<u8> = (0..length)
        .map(|_| BYTES[generator.below(known as u64) as usize])
        .collect();
    compare_text(calls, &text).map(drop)
}

fn refused_texts(calls: &mut Calls) -> Result<(), Difference> {
    let texts: [&[u8]; 17] = [
        b"",
        b" \n",
        b"2 2",
        b"1 1\t1 0",
        b"1 1 1 0\r\n",
        b"1 1 1 -1",
        b"1 1 1 0\0",
        b"1 1 1 4294967295",
        b"1 1 1 4294967296",
        b"4294967296 1 1 0",
        b"0 1 1",
        b"13 1 1",
        b"1 13 1",
        b"1 1 0 0",
        b"1 1 65536 0",
        b"2 2 1 0 0 0",
        b"1 1 1 1001",
    ];
    compare_texts(calls, &texts, true)
}

fn accepted_texts(calls: &mut Calls) -> Result<(), Difference> {
    let texts: [&[u8]; 5] = [
        b"2 2 10 3 4 5 6",
        b"\n\n  2 2\n10 3 4 5 6 \n",
        b"002 2 0000000000010 3 04 5 6",
        b"1 1 3 2",
        b"1 2 4 4 6\n",
    ];
    compare_texts(calls, &texts, false)
}

/// 4,096 bytes are read, and one more is refused.
fn longest_texts(calls: &mut Calls) -> Result<(), Difference> {
    for length in [4095, 4096, 4097, 5000, 70_000] {
        let mut text = b"1 1 3 2".to_vec();
        text.resize(length, b' ');
        compare_text(calls, &text)?;
    }
    Ok(())
}
