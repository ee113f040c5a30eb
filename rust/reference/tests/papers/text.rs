//! What the printing program reads and prints.

use crate::literal::assert_rows;
use reference::print_plan;
use std::io::Write;
use std::process::{Command, Stdio};
use tables::literal::text::OUTPUTS;

const LISTING: &str = "2 2 10 4\n2 0 0 0 1\n1 0 0 1 1\n4 0 1 1 0\n3 1 0 0 1\n";
const REFUSED: &str = "refused text\n";

#[test]
fn the_listing_is_printed() {
    assert_eq!(print_plan(b"2 2 10 3 4 5 6"), LISTING);
}

#[test]
fn literal_texts_are_printed() {
    assert_rows(OUTPUTS, |row| {
        (print_plan(row.text.as_bytes()), row.prints.to_string())
    });
}

#[test]
fn separators_may_recur_and_stand_first_and_last() {
    assert_eq!(print_plan(b"\n  2 \n 2  10\n\n3 4 5 6 \n"), LISTING);
}

#[test]
fn leading_zeros_are_allowed() {
    assert_eq!(print_plan(b"02 2 0010 00000000000000000003 4 5 6"), LISTING);
}

#[test]
fn refusals_are_printed_by_number() {
    assert_eq!(print_plan(b"0 2 0 1"), "refused 1\n");
    assert_eq!(print_plan(b"4294967295 4294967295 1"), "refused 1\n");
    assert_eq!(print_plan(b"1 1 65536 1"), "refused 2\n");
    assert_eq!(print_plan(b"1 1 1"), "refused 3\n");
    assert_eq!(print_plan(b"1 1 1 1 1"), "refused 3\n");
    assert_eq!(print_plan(b"1 1 1 1001"), "refused 4\n");
    assert_eq!(print_plan(b"1 1 1 4294967295"), "refused 4\n");
}

#[test]
fn text_is_refused_before_anything_else() {
    for input in [
        "",
        " \n ",
        "1",
        "1 1",
        "1 1\t1 1",
        "1 1 1 1\r\n",
        "1 1 -1 1",
    ] {
        assert_eq!(print_plan(input.as_bytes()), REFUSED, "{input:?}");
    }
    for input in [
        "13 1 1 x",
        "1 1 4294967296",
        "1 1 1 99999999999999999999999",
    ] {
        assert_eq!(print_plan(input.as_bytes()), REFUSED, "{input:?}");
    }
    assert_eq!(print_plan(b"1 1 1 1\0"), REFUSED);
    assert_eq!(print_plan(b"1 1 1 1\xFF"), REFUSED);
}

#[test]
fn the_longest_input_is_accepted_and_one_byte_more_is_not() {
    let padded = |length| format!("{:<length$}", "1 1 3 2").into_bytes();
    assert_eq!(print_plan(&padded(4096)), "1 1 3 2\n1 0\n2 1\n");
    assert_eq!(print_plan(&padded(4097)), REFUSED);
}

/// What the program prints for this input.
fn printed(input: &[u8]) -> Vec<u8> {
    let mut program = Command::new(env!("CARGO_BIN_EXE_reference_print_plan"))
        .stdin(Stdio::piped())
        .stdout(Stdio::piped())
        .spawn()
        .expect("the program starts");
    let mut stdin = program.stdin.take().expect("standard input is piped");
    stdin.write_all(input).expect("the program reads");
    drop(stdin);
    program.wait_with_output().expect("the program ends").stdout
}

#[test]
fn the_program_prints_the_same() {
    assert_eq!(printed(b"2 2 10 3 4 5 6"), LISTING.as_bytes());
    assert_eq!(printed(&[b' '; 5000]), REFUSED.as_bytes());
    assert_eq!(printed(b""), REFUSED.as_bytes());
}
