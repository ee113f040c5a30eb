//! The call that rounds corrections, whose cells may be below 0.

mod literal;

use compare::buffer::{lengths_around, Buffer};
use compare::cases::{require, Call, Calls, Difference, Kind, Named};
use compare::lent_tables::{corrections_turned_back, turned_back, LentTable};
use reference::{first_by_search, number_of};
use tables::corrections::{self, Way};
use tables::{all_sizes, random_denominator, random_table, Generator};
use tables::{GivenCorrections, GivenTable};

pub const KINDS: &[Kind] = &[
    Kind {
        name: "corrections-tables",
        cases: 1500,
        compare: random_tables,
    },
    Kind {
        name: "corrections-sizes",
        cases: 3,
        compare: every_size,
    },
    Kind {
        name: "corrections-mixed",
        cases: 1000,
        compare: |generator, calls| small_table(generator, calls, corrections::mixed),
    },
    Kind {
        name: "corrections-negative",
        cases: 1000,
        compare: |generator, calls| small_table(generator, calls, corrections::negative),
    },
    Kind {
        name: "corrections-less-whole-counts",
        cases: 1000,
        compare: |generator, calls| small_table(generator, calls, corrections::less_whole_counts),
    },
    Kind {
        name: "corrections-nearly-whole",
        cases: 1000,
        compare: |generator, calls| small_table(generator, calls, corrections::nearly_whole),
    },
    Kind {
        name: "corrections-near-bounds",
        cases: 1000,
        compare: |generator, calls| small_table(generator, calls, corrections::near_bounds),
    },
    Kind {
        name: "corrections-moved",
        cases: 1000,
        compare: |generator, calls| small_table(generator, calls, corrections::moved),
    },
    Kind {
        name: "corrections-four-by-four",
        cases: 300,
        compare: four_by_four,
    },
    Kind {
        name: "corrections-refusals",
        cases: 100,
        compare: refusals,
    },
    Kind {
        name: "corrections-without-negative-cells",
        cases: 1000,
        compare: without_negative_cells,
    },
    Kind {
        name: "corrections-refusals-without-negative-cells",
        cases: 50,
        compare: refusals_without_negative_cells,
    },
];

pub const NAMED: &[Named] = &[
    Named {
        name: "corrections-all-small",
        compare: all_small,
    },
    Named {
        name: "corrections-bounds",
        compare: bounds,
    },
    Named {
        name: "corrections-literal",
        compare: literal::calls,
    },
];

#[derive(Clone, Debug, PartialEq)]
struct Correcting {
    table: LentTable<i32>,
    counts: Buffer<i16>,
}

impl Correcting {
    fn of(generator: &mut Generator, table: &GivenCorrections, room: usize) -> Correcting {
        Correcting {
            table: LentTable::of(generator, table),
            counts: Buffer::random(generator, room),
        }
    }
}

impl Call for Correcting {
    fn reference(&mut self) -> u32 {
        number_of(reference::round_signed(
            self.table.rows,
            self.table.columns,
            self.table.denominator,
            self.table.cells.lent(),
            self.counts.lent_mut(),
        ))
    }

    fn library(&mut self) -> u32 {
        lufodimi_sys::round_signed(
            self.table.rows,
            self.table.columns,
            self.table.denominator,
            self.table.cells.lent(),
            self.counts.lent_mut(),
        )
    }
}

/// Accepted corrections, with buffers of all lengths.
fn compare_table(
    generator: &mut Generator,
    calls: &mut Calls,
    table: &GivenCorrections,
) -> Result<(), Difference> {
    for room in lengths_around(generator, table.cells.len()) {
        calls.compare(&Correcting::of(generator, table, room))?;
    }
    Ok(())
}

fn random_tables(generator: &mut Generator, calls: &mut Calls) -> Result<(), Difference> {
    let table = corrections::random(generator, 12);
    compare_table(generator, calls, &table)
}

/// Random corrections of every size.
fn every_size(generator: &mut Generator, calls: &mut Calls) -> Result<(), Difference> {
    for (rows, columns) in all_sizes() {
        let table = corrections::random_of(generator, rows, columns);
        compare_table(generator, calls, &table)?;
    }
    Ok(())
}

/// Corrections made in this way, with so few cells, 12 at most, that both sides are held to
/// a search through all arrays.
fn small_table(generator: &mut Generator, calls: &mut Calls, way: Way) -> Result<(), Difference> {
    let rows = generator.between(1, 4);
    let columns = generator.between(1, 12 / rows.max(3));
    let denominator = random_denominator(generator);
    let table = way(generator, rows as u32, columns as u32, denominator);
    compare_table(generator, calls, &table)?;
    compare_searched(generator, calls, &table)
}

/// The same with 16 cells, made in any way.
fn four_by_four(generator: &mut Generator, calls: &mut Calls) -> Result<(), Difference> {
    let table = corrections::random_of(generator, 4, 4);
    compare_searched(generator, calls, &table)
}

/// Accepted corrections, into a buffer of just their length: both sides write the first
/// array that the search finds.
fn compare_searched(
    generator: &mut Generator,
    calls: &mut Calls,
    table: &GivenCorrections,
) -> Result<(), Difference> {
    let call = Correcting::of(generator, table, table.cells.len());
    let found = calls.compare_stated(&call, 0)?;
    let cells: Vec<i64> = table.cells.iter().copied().map(i64::from).collect();
    let searched = first_by_search(
        table.rows as usize,
        table.columns as usize,
        i64::from(table.denominator),
        &cells,
    );
    let counts: Vec<i64> = found.counts.lent().iter().copied().map(i64::from).collect();
    require(searched.as_ref() == Some(&counts), || {
        format!("{found:?}\nthe search finds {searched:?}\n")
    })
}

/// Every table of a few cells with small numbers on both sides of 0.
fn all_small(calls: &mut Calls) -> Result<(), Difference> {
    for denominator in 1..=4 {
        all_of(calls, (1, 1), denominator, 12)?;
        all_of(calls, (1, 2), denominator, 9)?;
        all_of(calls, (2, 1), denominator, 9)?;
        all_of(calls, (2, 2), denominator, 3)?;
        all_of(calls, (1, 3), denominator, 4)?;
        all_of(calls, (3, 1), denominator, 4)?;
        all_of(calls, (2, 3), denominator, 1)?;
        all_of(calls, (3, 2), denominator, 1)?;
    }
    Ok(())
}

/// Every table of this size with cells from `-largest` to `largest`.
fn all_of(
    calls: &mut Calls,
    (rows, columns): (u32, u32),
    denominator: u32,
    largest: u32,
) -> Result<(), Difference> {
    let generator = &mut Generator::new(0);
    let values = 2 * largest + 1;
    for index in 0..values.pow(rows * columns) {
        let cell = |place: u32| (index / values.pow(place) % values) as i32 - largest as i32;
        let table = GivenCorrections {
            rows,
            columns,
            denominator,
            cells: (0..rows * columns).map(cell).collect(),
        };
        compare_searched(generator, calls, &table)?;
    }
    Ok(())
}

/// Tables of every size with all cells at a bound, which stay, and with one of them beyond
/// it: 4.
fn bounds(calls: &mut Calls) -> Result<(), Difference> {
    let generator = &mut Generator::new(0);
    for (rows, columns) in all_sizes() {
        for denominator in [1, 2, 1000, 65_535] {
            for sign in [-1, 1] {
                let bound = sign * 1000 * denominator as i32;
                let mut table = GivenTable::uniform(rows, columns, denominator, bound);
                let call = Correcting::of(generator, &table, table.cells.len());
                let counts = vec![sign as i16 * 1000; table.cells.len()];
                let left = Correcting {
                    counts: call.counts.with(&counts),
                    ..call.clone()
                };
                calls.compare_left(&call, 0, &left)?;
                let place = generator.place(table.cells.len());
                table.cells[place] += sign;
                let call = Correcting::of(generator, &table, table.cells.len());
                calls.compare_left(&call, 4, &call)?;
            }
        }
    }
    Ok(())
}

/// Corrections with all combinations of refusals, with buffers of all lengths.
fn refusals(generator: &mut Generator, calls: &mut Calls) -> Result<(), Difference> {
    let accepted = corrections::random(generator, 4);
    for table in corrections_turned_back(generator, &accepted) {
        for room in lengths_around(generator, accepted.cells.len()) {
            calls.compare(&Correcting::of(generator, &table, room))?;
        }
    }
    Ok(())
}

/// The rounding call's answer to a table without a cell below 0, and all that it leaves,
/// are those of this call.
fn compare_as_rounded(
    generator: &mut Generator,
    calls: &mut Calls,
    table: &GivenTable,
    room: usize,
) -> Result<(), Difference> {
    let call = Correcting::of(generator, &table.map(|cell| cell as i32), room);
    let mut counts = call.counts.map(|count| count as u16);
    let number = lufodimi_sys::round(
        table.rows,
        table.columns,
        table.denominator,
        &table.cells,
        counts.lent_mut(),
    );
    let left = Correcting {
        counts: counts.map(|count| count as i16),
        ..call.clone()
    };
    let found = calls.compare(&call)?;
    require((found.answer, &found.after) == (number, &left), || {
        let (answer, after) = (found.answer, &found.after);
        format!(
            "before: {call:?}\nboth return {answer} and leave: {after:?}\n\
             rounding returns {number} and leaves: {left:?}\n"
        )
    })
}

fn without_negative_cells(generator: &mut Generator, calls: &mut Calls) -> Result<(), Difference> {
    let table = random_table(generator, 12);
    for room in lengths_around(generator, table.cells.len()) {
        compare_as_rounded(generator, calls, &table, room)?;
    }
    Ok(())
}

/// A table with all combinations of refusals, in which the largest cell is that of
/// corrections.
fn refusals_without_negative_cells(
    generator: &mut Generator,
    calls: &mut Calls,
) -> Result<(), Difference> {
    let accepted = random_table(generator, 4);
    for table in turned_back(generator, &accepted) {
        let table = table.map(|cell| cell.min(i32::MAX as u32));
        for room in lengths_around(generator, accepted.cells.len()) {
            compare_as_rounded(generator, calls, &table, room)?;
        }
    }
    Ok(())
}
