//! The plan call.

mod literal;

use compare::buffer::{enough, lengths_around, Buffer};
use compare::cases::{require, Call, Calls, Difference, Kind, Named};
use compare::lent_tables::{turned_back, with_negative_cell, LentTable};
use compare::plans::{plan_of, stated_plan};
use reference::{encode, Refusal};
use tables::papers::{self, Example};
use tables::{all_sizes, evenly_spread, random_table, random_table_of, Generator, GivenTable};

pub const KINDS: &[Kind] = &[
    Kind {
        name: "plan-tables",
        cases: 800,
        compare: |generator, calls| random_tables(generator, calls, 12),
    },
    Kind {
        name: "plan-small-tables",
        cases: 8000,
        compare: |generator, calls| random_tables(generator, calls, 4),
    },
    Kind {
        name: "plan-sizes",
        cases: 2,
        compare: every_size,
    },
    Kind {
        name: "plan-largest-tables",
        cases: 8,
        compare: largest_tables,
    },
    Kind {
        name: "plan-refusals",
        cases: 200,
        compare: refusals,
    },
    Kind {
        name: "plan-negative-cells",
        cases: 500,
        compare: negative_cells,
    },
];

pub const NAMED: &[Named] = &[
    Named {
        name: "plan-listing",
        compare: |calls| planned(calls, papers::listing()),
    },
    Named {
        name: "plan-one-cell",
        compare: |calls| planned(calls, papers::one_cell()),
    },
    Named {
        name: "plan-four-halves",
        compare: |calls| planned(calls, papers::four_halves()),
    },
    Named {
        name: "plan-one-row",
        compare: |calls| planned(calls, papers::one_row()),
    },
    Named {
        name: "plan-zeros",
        compare: zeros,
    },
    Named {
        name: "plan-bounds",
        compare: bounds,
    },
    Named {
        name: "plan-document-001",
        compare: |calls| accepted(calls, &papers::document_001().table),
    },
    Named {
        name: "plan-document-002",
        compare: |calls| accepted(calls, &papers::document_002()),
    },
    Named {
        name: "plan-document-004-problem-2.1",
        compare: |calls| accepted(calls, &papers::problem_2_1()),
    },
    Named {
        name: "plan-document-004-problem-2.4",
        compare: |calls| accepted(calls, &papers::problem_2_4()),
    },
    Named {
        name: "plan-literal",
        compare: literal::calls,
    },
    Named {
        name: "plan-literal-checks",
        compare: literal::checks,
    },
    Named {
        name: "plan-literal-examples",
        compare: literal::examples,
    },
];

#[derive(Clone, Debug, PartialEq)]
struct Planning {
    table: LentTable,
    plan: Buffer<u8>,
}

impl Planning {
    fn of(generator: &mut Generator, table: &GivenTable, room: usize) -> Planning {
        Planning {
            table: LentTable::of(generator, table),
            plan: Buffer::random(generator, room),
        }
    }
}

impl Call for Planning {
    fn reference(&mut self) -> u32 {
        let answer = reference::plan(
            self.table.rows,
            self.table.columns,
            self.table.denominator,
            self.table.cells.lent(),
            self.plan.lent_mut(),
        );
        answer.unwrap_or_else(Refusal::number)
    }

    fn library(&mut self) -> u32 {
        lufodimi_sys::plan(
            self.table.rows,
            self.table.columns,
            self.table.denominator,
            self.table.cells.lent(),
            self.plan.lent_mut(),
        )
    }
}

/// The length of the stored plan of an accepted table.
fn length_of(table: &GivenTable) -> usize {
    encode(&plan_of(table)).len()
}

/// An accepted table, with a buffer that is long enough and one that is not.
fn compare_table(
    generator: &mut Generator,
    calls: &mut Calls,
    table: &GivenTable,
) -> Result<(), Difference> {
    let needed = length_of(table);
    let short = needed - generator.pick(&[1, 1, 2, needed]);
    for room in [enough(generator, needed), short] {
        calls.compare(&Planning::of(generator, table, room))?;
    }
    Ok(())
}

/// A random table with at most so many rows and columns.
fn random_tables(
    generator: &mut Generator,
    calls: &mut Calls,
    largest: u32,
) -> Result<(), Difference> {
    let table = random_table(generator, largest);
    compare_table(generator, calls, &table)
}

/// A random table of every size.
fn every_size(generator: &mut Generator, calls: &mut Calls) -> Result<(), Difference> {
    for (rows, columns) in all_sizes() {
        let table = random_table_of(generator, rows, columns);
        compare_table(generator, calls, &table)?;
    }
    Ok(())
}

/// Twelve by twelve over the largest denominator, with just the longest buffer.
fn largest_tables(generator: &mut Generator, calls: &mut Calls) -> Result<(), Difference> {
    let table = evenly_spread(generator, 12, 12, 65_535);
    calls.compare(&Planning::of(generator, &table, 50_912))?;
    Ok(())
}

/// A table with all combinations of refusals, with buffers of all lengths.
fn refusals(generator: &mut Generator, calls: &mut Calls) -> Result<(), Difference> {
    let accepted = random_table(generator, 4);
    let needed = length_of(&accepted);
    for table in turned_back(generator, &accepted) {
        for room in lengths_around(generator, needed) {
            calls.compare(&Planning::of(generator, &table, room))?;
        }
    }
    Ok(())
}

/// A cell below 0, with room for every plan and with none: 4.
fn negative_cells(generator: &mut Generator, calls: &mut Calls) -> Result<(), Difference> {
    let accepted = random_table(generator, 12);
    let table = with_negative_cell(generator, &accepted);
    for room in [50_912, 0] {
        calls.compare_stated(&Planning::of(generator, &table, room), 4)?;
    }
    Ok(())
}

/// An accepted table, into a buffer of just the length that both return.
fn accepted(calls: &mut Calls, table: &GivenTable) -> Result<(), Difference> {
    let needed = length_of(table);
    let call = Planning::of(&mut Generator::new(0), table, needed);
    calls.compare_stated(&call, needed as u32).map(|_| ())
}

/// A table whose plan the papers state.
fn planned(calls: &mut Calls, example: Example) -> Result<(), Difference> {
    let table = example.table.clone();
    let bytes = encode(&stated_plan(example));
    let call = Planning::of(&mut Generator::new(0), &table, bytes.len());
    let found = calls.compare_stated(&call, bytes.len() as u32)?;
    require(found.plan.lent() == bytes, || {
        format!("{found:?}\nthe papers say {bytes:?}\n")
    })
}

/// All cells 0, in every size and over several denominators.
fn zeros(calls: &mut Calls) -> Result<(), Difference> {
    for (rows, columns) in all_sizes() {
        for denominator in [1, 2, 1000, 65_535] {
            let table = GivenTable::uniform(rows, columns, denominator, 0);
            let arrays = vec![(u64::from(denominator), vec![0; table.cells.len()])];
            planned(calls, Example { table, arrays })?;
        }
    }
    Ok(())
}

/// The bounds of rows, denominator and cell, and what lies beside them.
fn bounds(calls: &mut Calls) -> Result<(), Difference> {
    let stated = [
        (GivenTable::uniform(1, 1, 65_535, 0), 30),
        (GivenTable::uniform(1, 1, 0, 0), 2),
        (GivenTable::uniform(1, 1, 65_536, 0), 2),
        (GivenTable::uniform(12, 1, 1, 0), 96),
        (GivenTable::uniform(0, 1, 1, 0), 1),
        (GivenTable::uniform(13, 1, 1, 0), 1),
        (GivenTable::uniform(1, 1, 7, 7000), 30),
        (GivenTable::uniform(1, 1, 7, 7001), 4),
    ];
    for (table, answer) in &stated {
        let call = Planning::of(&mut Generator::new(0), table, 200);
        calls.compare_stated(&call, *answer)?;
    }
    Ok(())
}
