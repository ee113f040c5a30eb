//! The rounding call.

mod literal;

use compare::buffer::{lengths_around, Buffer};
use compare::cases::{require, Call, Calls, Difference, Kind, Named};
use compare::lent_tables::{turned_back, with_negative_cell, LentTable};
use reference::number_of;
use tables::papers::{self, Example};
use tables::{all_sizes, random_table, random_table_of, Generator, GivenTable};

pub const KINDS: &[Kind] = &[
    Kind {
        name: "round-tables",
        cases: 3000,
        compare: random_tables,
    },
    Kind {
        name: "round-sizes",
        cases: 5,
        compare: every_size,
    },
    Kind {
        name: "round-refusals",
        cases: 200,
        compare: refusals,
    },
    Kind {
        name: "round-negative-cells",
        cases: 500,
        compare: negative_cells,
    },
];

pub const NAMED: &[Named] = &[
    Named {
        name: "round-listing",
        compare: |calls| rounded(calls, papers::listing()),
    },
    Named {
        name: "round-one-cell",
        compare: |calls| rounded(calls, papers::one_cell()),
    },
    Named {
        name: "round-four-halves",
        compare: |calls| rounded(calls, papers::four_halves()),
    },
    Named {
        name: "round-one-row",
        compare: |calls| rounded(calls, papers::one_row()),
    },
    Named {
        name: "round-document-001",
        compare: |calls| accepted(calls, &papers::document_001().table),
    },
    Named {
        name: "round-document-002",
        compare: |calls| accepted(calls, &papers::document_002()),
    },
    Named {
        name: "round-document-004-problem-2.1",
        compare: |calls| accepted(calls, &papers::problem_2_1()),
    },
    Named {
        name: "round-document-004-problem-2.4",
        compare: |calls| accepted(calls, &papers::problem_2_4()),
    },
    Named {
        name: "round-literal",
        compare: literal::calls,
    },
    Named {
        name: "round-literal-checks",
        compare: literal::checks,
    },
];

#[derive(Clone, Debug, PartialEq)]
struct Round {
    table: LentTable,
    counts: Buffer<u16>,
}

impl Round {
    fn of(generator: &mut Generator, table: &GivenTable, room: usize) -> Round {
        Round {
            table: LentTable::of(generator, table),
            counts: Buffer::random(generator, room),
        }
    }
}

impl Call for Round {
    fn reference(&mut self) -> u32 {
        number_of(reference::round(
            self.table.rows,
            self.table.columns,
            self.table.denominator,
            self.table.cells.lent(),
            self.counts.lent_mut(),
        ))
    }

    fn library(&mut self) -> u32 {
        lufodimi_sys::round(
            self.table.rows,
            self.table.columns,
            self.table.denominator,
            self.table.cells.lent(),
            self.counts.lent_mut(),
        )
    }
}

/// An accepted table, with buffers of all lengths.
fn compare_table(
    generator: &mut Generator,
    calls: &mut Calls,
    table: &GivenTable,
) -> Result<(), Difference> {
    for room in lengths_around(generator, table.cells.len()) {
        calls.compare(&Round::of(generator, table, room))?;
    }
    Ok(())
}

fn random_tables(generator: &mut Generator, calls: &mut Calls) -> Result<(), Difference> {
    let table = random_table(generator, 12);
    compare_table(generator, calls, &table)
}

/// A random table of every size.
fn every_size(generator: &mut Generator, calls: &mut Calls) -> Result<(), Difference> {
    for (rows, columns) in all_sizes() {
        let table = random_table_of(generator, rows, columns);
        compare_table(generator, calls, &table)?;
    }
    Ok(())
}

/// A table with all combinations of refusals, with buffers of all lengths.
fn refusals(generator: &mut Generator, calls: &mut Calls) -> Result<(), Difference> {
    let accepted = random_table(generator, 4);
    for table in turned_back(generator, &accepted) {
        for room in lengths_around(generator, accepted.cells.len()) {
            calls.compare(&Round::of(generator, &table, room))?;
        }
    }
    Ok(())
}

/// A cell below 0, with buffers of all lengths: 4.
fn negative_cells(generator: &mut Generator, calls: &mut Calls) -> Result<(), Difference> {
    let accepted = random_table(generator, 12);
    let table = with_negative_cell(generator, &accepted);
    for room in lengths_around(generator, table.cells.len()) {
        calls.compare_stated(&Round::of(generator, &table, room), 4)?;
    }
    Ok(())
}

/// The rounding of an accepted table, into a buffer of just its length.
fn compare_accepted(calls: &mut Calls, table: &GivenTable) -> Result<Round, Difference> {
    let call = Round::of(&mut Generator::new(0), table, table.cells.len());
    calls.compare_stated(&call, 0)
}

fn accepted(calls: &mut Calls, table: &GivenTable) -> Result<(), Difference> {
    compare_accepted(calls, table).map(|_| ())
}

/// A table whose plan the papers state: its first array is the rounding.
fn rounded(calls: &mut Calls, example: Example) -> Result<(), Difference> {
    let found = compare_accepted(calls, &example.table)?;
    let (_, stated) = &example.arrays[0];
    let counts = found.counts.lent().iter().map(|&count| u64::from(count));
    require(counts.eq(stated.iter().copied()), || {
        format!("{found:?}\nthe papers say {stated:?}\n")
    })
}
