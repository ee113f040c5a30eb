//! The walk through all controlled roundings of a small table: the call for the first, and
//! the call for the next.

mod literal;
mod refusals;

use compare::buffer::{lengths_around, Buffer};
use compare::cases::{require, Call, Calls, Difference, Kind, Named};
use compare::lent_tables::LentTable;
use reference::{number_of, Refusal, Step, Walk};
use std::fmt::{self, Debug, Formatter};
use tables::papers::{self, Example};
use tables::{all_sizes, evenly_spread, random_denominator, random_table, random_table_of};
use tables::{Generator, GivenTable};

pub const KINDS: &[Kind] = &[
    Kind {
        name: "walk-tables",
        cases: 300,
        compare: random_tables,
    },
    Kind {
        name: "walk-sizes",
        cases: 3,
        compare: every_size,
    },
    Kind {
        name: "walk-without-whole-cells",
        cases: 20,
        compare: without_whole_cells,
    },
    Kind {
        name: "walk-whole-entries",
        cases: 200,
        compare: whole_entries,
    },
    Kind {
        name: "walk-other-arrays",
        cases: 200,
        compare: other_arrays,
    },
    Kind {
        name: "walk-refusals",
        cases: 20,
        compare: refusals::every_pair,
    },
    Kind {
        name: "walk-sizes-above-four",
        cases: 3,
        compare: refusals::sizes_above_four,
    },
    Kind {
        name: "walk-negative-cells",
        cases: 200,
        compare: refusals::negative_cells,
    },
];

pub const NAMED: &[Named] = &[
    Named {
        name: "walk-all-small",
        compare: all_small,
    },
    Named {
        name: "walk-all-whole",
        compare: all_whole,
    },
    Named {
        name: "walk-wide-sizes",
        compare: refusals::wide_sizes,
    },
    Named {
        name: "walk-long-arrays",
        compare: refusals::long_arrays,
    },
    Named {
        name: "walk-document-001",
        compare: document_001,
    },
    Named {
        name: "walk-document-002",
        compare: document_002,
    },
    Named {
        name: "walk-document-004-problem-2.1",
        compare: problem_2_1,
    },
    Named {
        name: "walk-document-004-problem-2.2",
        compare: problem_2_2,
    },
    Named {
        name: "walk-literal-first",
        compare: literal::first_calls,
    },
    Named {
        name: "walk-literal-next",
        compare: literal::next_calls,
    },
];

/// The call for the first array.
#[derive(Clone, Debug, PartialEq)]
struct Beginning<'w> {
    table: LentTable,
    counts: Buffer<u16>,
    walk: Known<'w>,
}

/// The call for the next array.
#[derive(Clone, Debug, PartialEq)]
struct GoingOn<'w> {
    table: LentTable,
    array: Buffer<u16>,
    counts: Buffer<u16>,
    walk: Known<'w>,
}

/// The table's controlled roundings if they are known. The reference lists them anew
/// otherwise, which is too slow for every array of a large table.
#[derive(Clone, Copy, PartialEq)]
struct Known<'w>(Option<&'w Walk>);

/// A difference names the table, and does not print all its arrays.
impl Debug for Known<'_> {
    fn fmt(&self, formatter: &mut Formatter) -> fmt::Result {
        match self.0 {
            Some(walk) => write!(formatter, "of {} arrays", walk.arrays().len()),
            None => formatter.write_str("not known"),
        }
    }
}

impl<'w> Beginning<'w> {
    fn of(generator: &mut Generator, table: &GivenTable, room: usize, walk: Known<'w>) -> Self {
        Beginning {
            table: LentTable::of(generator, table),
            counts: Buffer::random(generator, room),
            walk,
        }
    }
}

impl<'w> GoingOn<'w> {
    fn of(
        generator: &mut Generator,
        table: &GivenTable,
        array: &[u16],
        room: usize,
        walk: Known<'w>,
    ) -> Self {
        GoingOn {
            table: LentTable::of(generator, table),
            array: Buffer::holding(generator, array),
            counts: Buffer::random(generator, room),
            walk,
        }
    }
}

impl Call for Beginning<'_> {
    fn reference(&mut self) -> u32 {
        let counts = self.counts.lent_mut();
        number_of(match self.walk.0 {
            Some(walk) => walk.first(counts),
            None => reference::walk_first(
                self.table.rows,
                self.table.columns,
                self.table.denominator,
                self.table.cells.lent(),
                counts,
            ),
        })
    }

    fn library(&mut self) -> u32 {
        lufodimi_sys::walk_first(
            self.table.rows,
            self.table.columns,
            self.table.denominator,
            self.table.cells.lent(),
            self.counts.lent_mut(),
        )
    }
}

impl Call for GoingOn<'_> {
    fn reference(&mut self) -> u32 {
        let (array, counts) = (self.array.lent(), self.counts.lent_mut());
        let step = match self.walk.0 {
            Some(walk) => walk.next(array, counts),
            None => reference::walk_next(
                self.table.rows,
                self.table.columns,
                self.table.denominator,
                self.table.cells.lent(),
                array,
                counts,
            ),
        };
        step.map_or_else(Refusal::number, Step::number)
    }

    fn library(&mut self) -> u32 {
        lufodimi_sys::walk_next(
            self.table.rows,
            self.table.columns,
            self.table.denominator,
            self.table.cells.lent(),
            self.array.lent(),
            self.counts.lent_mut(),
        )
    }
}

/// The controlled roundings of a table, by the reference.
fn listed(table: &GivenTable) -> Walk {
    Walk::accept(table.rows, table.columns, table.denominator, &table.cells)
        .expect("the table is accepted")
}

/// The number of the second call at the last array.
const LAST: u32 = 255;

/// A whole walk over a known list: the library begins with the first of its arrays, goes on
/// from each array that it wrote, and says at the last that it is.
fn walk_through(
    generator: &mut Generator,
    calls: &mut Calls,
    table: &GivenTable,
    walk: &Walk,
) -> Result<(), Difference> {
    let size = table.cells.len();
    let room = size + generator.below(3) as usize;
    let begun = Beginning::of(generator, table, room, Known(Some(walk)));
    let mut counts = calls.compare_stated(&begun, 0)?.counts;
    same_as_rounding(&begun, &counts)?;
    for place in 1..=walk.arrays().len() {
        let last = place == walk.arrays().len();
        let room = size + generator.below(3) as usize;
        let next = GoingOn::of(
            generator,
            table,
            &counts.lent()[..size],
            room,
            Known(Some(walk)),
        );
        let after = calls.compare_stated(&next, if last { LAST } else { 0 })?;
        counts = after.counts;
    }
    Ok(())
}

/// The rounding call leaves the buffer just as the first call of the walk did.
fn same_as_rounding(begun: &Beginning, left: &Buffer<u16>) -> Result<(), Difference> {
    let (table, mut counts) = (&begun.table, begun.counts.clone());
    let number = lufodimi_sys::round(
        table.rows,
        table.columns,
        table.denominator,
        table.cells.lent(),
        counts.lent_mut(),
    );
    require((number, &counts) == (0, left), || {
        format!("{begun:?}\nrounding returns {number} and leaves: {counts:?}\n")
    })
}

/// A whole walk; and buffers of all lengths for the beginning, and for going on from the
/// first array, from the last and from any.
fn walked(
    generator: &mut Generator,
    calls: &mut Calls,
    table: &GivenTable,
) -> Result<Walk, Difference> {
    let walk = listed(table);
    walk_through(generator, calls, table, &walk)?;
    let arrays = walk.arrays();
    let any = generator.place(arrays.len());
    for room in lengths_around(generator, table.cells.len()) {
        calls.compare(&Beginning::of(generator, table, room, Known(Some(&walk))))?;
        for array in [&arrays[0], &arrays[arrays.len() - 1], &arrays[any]] {
            calls.compare(&GoingOn::of(
                generator,
                table,
                array,
                room,
                Known(Some(&walk)),
            ))?;
        }
    }
    Ok(walk)
}

/// The most rows and columns of a table that is walked through.
const LARGEST: u32 = 4;

/// Every size of a table that is walked through.
fn small_sizes() -> impl Iterator<Item = (u32, u32)> {
    all_sizes().filter(|&(rows, columns)| rows <= LARGEST && columns <= LARGEST)
}

fn random_tables(generator: &mut Generator, calls: &mut Calls) -> Result<(), Difference> {
    let table = random_table(generator, LARGEST);
    walked(generator, calls, &table).map(drop)
}

/// A random table of every size.
fn every_size(generator: &mut Generator, calls: &mut Calls) -> Result<(), Difference> {
    for (rows, columns) in small_sizes() {
        let table = random_table_of(generator, rows, columns);
        walked(generator, calls, &table)?;
    }
    Ok(())
}

/// Four by four, where no cell is whole.
fn without_whole_cells(generator: &mut Generator, calls: &mut Calls) -> Result<(), Difference> {
    let denominator = random_denominator(generator).max(2);
    let table = evenly_spread(generator, LARGEST, LARGEST, denominator - 1);
    let table = GivenTable {
        denominator,
        cells: table.cells.iter().map(|cell| cell + 1).collect(),
        ..table
    };
    walked(generator, calls, &table).map(drop)
}

/// A table with few different fractions, so that many totals are whole, with many whole
/// cells and with counts up to the largest.
fn whole_entries(generator: &mut Generator, calls: &mut Calls) -> Result<(), Difference> {
    let [rows, columns] = [(); 2].map(|()| generator.between(1, u64::from(LARGEST)) as u32);
    let denominator = generator.between(2, 4) as u32;
    let times = generator.between(1, 65_535 / u64::from(denominator)) as u32;
    let mut table = evenly_spread(generator, rows, columns, denominator);
    for cell in &mut table.cells {
        if generator.once_in(3) {
            *cell = 0;
        }
        *cell = times * (*cell + denominator * generator.below(1000) as u32);
    }
    table.denominator = times * denominator;
    walked(generator, calls, &table).map(drop)
}

/// Arrays that are no controlled roundings, and some that are, with buffers of all lengths.
fn other_arrays(generator: &mut Generator, calls: &mut Calls) -> Result<(), Difference> {
    let table = random_table(generator, LARGEST);
    let walk = listed(&table);
    for _ in 0..4 {
        let array = &walk.arrays()[generator.place(walk.arrays().len())];
        for other in changed(generator, &table, array) {
            for room in lengths_around(generator, array.len()) {
                calls.compare(&GoingOn::of(
                    generator,
                    &table,
                    &other,
                    room,
                    Known(Some(&walk)),
                ))?;
            }
        }
    }
    Ok(())
}

/// An array with a count changed, in its low or in its high part, with two counts changed so
/// that the total of their row or of their column stays, with all counts rounded down or up
/// by chance, and with another length.
fn changed(generator: &mut Generator, table: &GivenTable, array: &[u16]) -> Vec<Vec<u16>> {
    let columns = table.columns as usize;
    let (one, other) = (generator.place(array.len()), generator.place(array.len()));
    let with = |place: usize, count: u16| {
        let mut changed = array.to_vec();
        changed[place] = count;
        changed
    };
    let moved = |from: usize, to: usize| {
        let mut changed = array.to_vec();
        changed[from] = changed[from].wrapping_sub(1);
        changed[to] = changed[to].wrapping_add(1);
        changed
    };
    let in_row = one / columns * columns + other % columns;
    let in_column = other / columns * columns + one % columns;
    let rounded = table.cells.iter().map(|cell| {
        let up = cell % table.denominator > 0 && generator.once_in(2);
        (cell / table.denominator) as u16 + u16::from(up)
    });
    let rounded = rounded.collect();
    vec![
        with(one, array[one].wrapping_add(1)),
        with(one, array[one].wrapping_sub(1)),
        with(one, array[one] ^ 1 << generator.between(8, 15)),
        with(one, generator.bits() as u16),
        moved(one, in_row),
        moved(one, in_column),
        moved(one, other),
        rounded,
        array[1..].to_vec(),
        [array, &[0]].concat(),
        [&[0], array].concat(),
        vec![],
    ]
}

/// Every table of a few cells with small numbers.
fn all_small(calls: &mut Calls) -> Result<(), Difference> {
    for denominator in 1..=4 {
        all_of(calls, (1, 1), denominator, 12)?;
        all_of(calls, (1, 2), denominator, 8)?;
        all_of(calls, (2, 1), denominator, 8)?;
        all_of(calls, (1, 3), denominator, 5)?;
        all_of(calls, (3, 1), denominator, 5)?;
        all_of(calls, (1, 4), denominator, 3)?;
        all_of(calls, (4, 1), denominator, 3)?;
        all_of(calls, (2, 2), denominator, 5)?;
        all_of(calls, (2, 3), denominator, 2)?;
        all_of(calls, (3, 2), denominator, 2)?;
        all_of(calls, (2, 4), denominator, 1)?;
        all_of(calls, (4, 2), denominator, 1)?;
        all_of(calls, (3, 3), denominator, 1)?;
    }
    Ok(())
}

/// Every table of this size with cells up to the largest.
fn all_of(
    calls: &mut Calls,
    (rows, columns): (u32, u32),
    denominator: u32,
    largest: u32,
) -> Result<(), Difference> {
    let generator = &mut Generator::new(0);
    let values = largest + 1;
    for index in 0..values.pow(rows * columns) {
        let cell = |place: u32| index / values.pow(place) % values;
        let table = GivenTable {
            rows,
            columns,
            denominator,
            cells: (0..rows * columns).map(cell).collect(),
        };
        walk_through(generator, calls, &table, &listed(&table))?;
    }
    Ok(())
}

/// Tables of every size whose cells are all whole: the first array is the last.
fn all_whole(calls: &mut Calls) -> Result<(), Difference> {
    let generator = &mut Generator::new(0);
    for (rows, columns) in small_sizes() {
        for (denominator, count) in [(1, 0), (1, 1000), (7, 2), (65_535, 1), (65_535, 1000)] {
            let table = GivenTable::uniform(rows, columns, denominator, count * denominator);
            let counts = vec![count as u16; table.cells.len()];
            let begun = Beginning::of(generator, &table, counts.len(), Known(None));
            let left = Beginning {
                counts: begun.counts.with(&counts),
                ..begun.clone()
            };
            calls.compare_left(&begun, 0, &left)?;
            let next = GoingOn::of(generator, &table, &counts, counts.len(), Known(None));
            calls.compare_left(&next, LAST, &next)?;
        }
    }
    Ok(())
}

/// A table of the papers that has so many controlled roundings, and arrays among them.
fn stated(
    calls: &mut Calls,
    table: &GivenTable,
    number: usize,
    examples: &[Example],
) -> Result<(), Difference> {
    let walk = walked(&mut Generator::new(0), calls, table)?;
    let found = walk.arrays().len();
    require(found == number, || {
        format!("{table:?}\nboth find {found} arrays, the papers {number}\n")
    })?;
    examples.iter().try_for_each(|example| has(&walk, example))
}

/// The arrays that the papers state for a table are controlled roundings.
fn has(walk: &Walk, example: &Example) -> Result<(), Difference> {
    for (_, counts) in &example.arrays {
        let mut arrays = walk.arrays().iter();
        let is_there = arrays.any(|array| {
            array
                .iter()
                .copied()
                .map(u64::from)
                .eq(counts.iter().copied())
        });
        require(is_there, || {
            format!("{:?}\nno array {counts:?}\n", example.table)
        })?;
    }
    Ok(())
}

fn document_001(calls: &mut Calls) -> Result<(), Difference> {
    let example = papers::document_001();
    let walk = walked(&mut Generator::new(0), calls, &example.table)?;
    has(&walk, &example)
}

fn document_002(calls: &mut Calls) -> Result<(), Difference> {
    walked(&mut Generator::new(0), calls, &papers::document_002()).map(drop)
}

/// Six arrays, which the document lists.
fn problem_2_1(calls: &mut Calls) -> Result<(), Difference> {
    let table = papers::problem_2_1();
    let solutions = [papers::problem_2_1_common(), papers::problem_2_1_method_3()];
    stated(calls, &table, 6, &solutions)?;
    let walk = listed(&table);
    require(walk.arrays() == papers::PROBLEM_2_1_ARRAYS, || {
        format!("{:?}\nis not the papers' list\n", walk.arrays())
    })
}

fn problem_2_2(calls: &mut Calls) -> Result<(), Difference> {
    let solutions = [
        papers::problem_2_2_new_methods(),
        papers::problem_2_2_sitter_skinner(),
        papers::problem_2_2_jessen(),
    ];
    stated(calls, &papers::problem_2_2(), 30, &solutions)
}
