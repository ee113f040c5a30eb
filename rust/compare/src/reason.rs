//! The reason call: which entry set the weight of an array.

mod literal;

use compare::buffer::Buffer;
use compare::cases::{require, Call, Calls, Difference, Kind, Named};
use compare::lent_tables::{turned_back, with_negative_cell, LentTable};
use compare::plans::plan_of;
use reference::{number_of, Plan};
use std::collections::BTreeSet;
use tables::{all_sizes, evenly_spread, papers, random_table, random_table_of};
use tables::{Generator, GivenTable};

pub const KINDS: &[Kind] = &[
    Kind {
        name: "reason-tables",
        cases: 300,
        compare: random_tables,
    },
    Kind {
        name: "reason-planned-anew",
        cases: 2000,
        compare: planned_anew,
    },
    Kind {
        name: "reason-ties",
        cases: 2000,
        compare: ties,
    },
    Kind {
        name: "reason-grand-total-up",
        cases: 300,
        compare: grand_total_up,
    },
    Kind {
        name: "reason-sizes",
        cases: 1,
        compare: every_size,
    },
    Kind {
        name: "reason-largest-tables",
        cases: 4,
        compare: largest_tables,
    },
    Kind {
        name: "reason-refusals",
        cases: 40,
        compare: refusals,
    },
    Kind {
        name: "reason-negative-cells",
        cases: 500,
        compare: negative_cells,
    },
];

pub const NAMED: &[Named] = &[
    Named {
        name: "reason-all-whole",
        compare: all_whole,
    },
    Named {
        name: "reason-every-kind",
        compare: every_kind,
    },
    Named {
        name: "reason-document-001",
        compare: |calls| accepted(calls, &papers::document_001().table),
    },
    Named {
        name: "reason-document-002",
        compare: |calls| accepted(calls, &papers::document_002()),
    },
    Named {
        name: "reason-document-004-problem-2.1",
        compare: |calls| accepted(calls, &papers::problem_2_1()),
    },
    Named {
        name: "reason-document-004-problem-2.4",
        compare: |calls| accepted(calls, &papers::problem_2_4()),
    },
    Named {
        name: "reason-literal",
        compare: literal::calls,
    },
];

/// How many numbers a reply has.
const REPLY: usize = 4;

#[derive(Clone, Debug, PartialEq)]
struct Asking<'p> {
    table: LentTable,
    array: u32,
    reply: Buffer<u32>,
    /// The plan of the table if it is known. The reference plans anew otherwise, which is
    /// too slow for every array of a large table.
    plan: Option<&'p Plan>,
}

impl Asking<'_> {
    fn of(
        generator: &mut Generator,
        table: &GivenTable,
        array: u32,
        room: usize,
    ) -> Asking<'static> {
        Asking {
            table: LentTable::of(generator, table),
            array,
            reply: Buffer::random(generator, room),
            plan: None,
        }
    }
}

impl Call for Asking<'_> {
    fn reference(&mut self) -> u32 {
        let reply = self.reply.lent_mut();
        number_of(match self.plan {
            Some(plan) => reference::write_reason(plan, self.array, reply),
            None => reference::reason(
                self.table.rows,
                self.table.columns,
                self.table.denominator,
                self.table.cells.lent(),
                self.array,
                reply,
            ),
        })
    }

    fn library(&mut self) -> u32 {
        lufodimi_sys::reason(
            self.table.rows,
            self.table.columns,
            self.table.denominator,
            self.table.cells.lent(),
            self.array,
            self.reply.lent_mut(),
        )
    }
}

/// Numbers from 0 to one more than there are arrays, and some far above, which a narrower
/// number would take for 1 or 0.
fn numbers(plan: &Plan) -> impl Iterator<Item = u32> {
    let arrays = plan.arrays.len() as u32;
    (0..=arrays + 1).chain([257, 65_537, 1 << 31, (1 << 31) + 1, u32::MAX])
}

/// An accepted table with every array of its plan and with numbers that it does not have,
/// each with a buffer that has just room and with another one. The replies.
fn every_array(
    generator: &mut Generator,
    calls: &mut Calls,
    table: &GivenTable,
) -> Result<Vec<Vec<u32>>, Difference> {
    let plan = plan_of(table);
    let mut replies = Vec::new();
    for array in numbers(&plan) {
        for room in [REPLY, generator.place(REPLY + 2)] {
            let found = calls.compare(&Asking {
                plan: Some(&plan),
                ..Asking::of(generator, table, array, room)
            })?;
            if found.answer == 0 {
                replies.push(found.after.reply.lent()[..REPLY].to_vec());
            }
        }
    }
    Ok(replies)
}

fn random_tables(generator: &mut Generator, calls: &mut Calls) -> Result<(), Difference> {
    let table = random_table(generator, 12);
    every_array(generator, calls, &table).map(drop)
}

/// A small table that the reference plans by itself for each call.
fn planned_anew(generator: &mut Generator, calls: &mut Calls) -> Result<(), Difference> {
    let table = random_table(generator, 4);
    for array in numbers(&plan_of(&table)) {
        calls.compare(&Asking::of(generator, &table, array, REPLY))?;
    }
    Ok(())
}

/// A table over a denominator so small that many entries share the smallest limit.
fn ties(generator: &mut Generator, calls: &mut Calls) -> Result<(), Difference> {
    let [rows, columns] = [(); 2].map(|()| generator.between(1, 6) as u32);
    let denominator = generator.between(2, 9) as u32;
    let table = evenly_spread(generator, rows, columns, denominator);
    every_array(generator, calls, &table).map(drop)
}

/// Cells over 4. The first array has no limit as small as that of the grand total, which is
/// 13 and rounded up to 4: 13 - 3·4.
const GRAND_TOTAL_UP: [[u32; 4]; 3] = [[2, 2, 2, 2], [0, 2, 0, 0], [3, 0, 0, 0]];

/// That table over a multiple of its denominator, with whole counts added to its cells. Random
/// tables hardly ever have a grand total rounded up that sets a weight.
fn grand_total_up(generator: &mut Generator, calls: &mut Calls) -> Result<(), Difference> {
    let times = generator.between(1, 65_535 / 4) as u32;
    let mut rows = GRAND_TOTAL_UP;
    for cell in rows.as_flattened_mut() {
        *cell = times * (*cell + 4 * generator.below(1000) as u32);
    }
    let table = GivenTable::by_rows(4 * times, &rows);
    let replies = every_array(generator, calls, &table)?;
    require(replies[0] == [4, 0, 0, 2], || {
        format!("{table:?}\nboth reply {:?} to array 1\n", replies[0])
    })
}

/// A random table of every size.
fn every_size(generator: &mut Generator, calls: &mut Calls) -> Result<(), Difference> {
    for (rows, columns) in all_sizes() {
        let table = random_table_of(generator, rows, columns);
        every_array(generator, calls, &table)?;
    }
    Ok(())
}

/// Twelve by twelve over the largest denominator.
fn largest_tables(generator: &mut Generator, calls: &mut Calls) -> Result<(), Difference> {
    let table = evenly_spread(generator, 12, 12, 65_535);
    every_array(generator, calls, &table).map(drop)
}

/// A table with all combinations of refusals, with arrays that its plan has and has not,
/// and with buffers of all lengths.
fn refusals(generator: &mut Generator, calls: &mut Calls) -> Result<(), Difference> {
    let accepted = random_table(generator, 4);
    let arrays = plan_of(&accepted).arrays.len() as u32;
    for table in turned_back(generator, &accepted) {
        for array in [0, 1, arrays, arrays + 1, u32::MAX] {
            for room in 0..REPLY + 2 {
                calls.compare(&Asking::of(generator, &table, array, room))?;
            }
        }
    }
    Ok(())
}

/// A cell below 0, with arrays that a plan can have and cannot, and with buffers of all
/// lengths: 4.
fn negative_cells(generator: &mut Generator, calls: &mut Calls) -> Result<(), Difference> {
    let accepted = random_table(generator, 12);
    let table = with_negative_cell(generator, &accepted);
    for array in [0, 1, 171] {
        for room in 0..REPLY + 2 {
            calls.compare_stated(&Asking::of(generator, &table, array, room), 4)?;
        }
    }
    Ok(())
}

fn accepted(calls: &mut Calls, table: &GivenTable) -> Result<(), Difference> {
    every_array(&mut Generator::new(0), calls, table).map(drop)
}

/// The reply of a last array: all entries are whole, and the first cell is named.
const ALL_WHOLE: [u32; REPLY] = [1, 1, 1, 0];

/// A table with the replies that are worked out by hand, array by array; one array more is
/// refused.
fn stated(
    calls: &mut Calls,
    table: &GivenTable,
    replies: &[[u32; REPLY]],
) -> Result<(), Difference> {
    let generator = &mut Generator::new(0);
    let mut array = 0;
    for reply in replies {
        array += 1;
        let call = Asking::of(generator, table, array, REPLY);
        let left = Asking {
            reply: call.reply.with(reply),
            ..call.clone()
        };
        calls.compare_left(&call, 0, &left)?;
    }
    let above = Asking::of(generator, table, array + 1, REPLY);
    calls.compare_stated(&above, 14).map(drop)
}

/// Tables of every size whose entries are all whole: one array, and nothing rounded.
fn all_whole(calls: &mut Calls) -> Result<(), Difference> {
    for (rows, columns) in all_sizes() {
        for (denominator, cell) in [(1, 0), (1, 1000), (7, 14), (65_535, 65_535)] {
            let table = GivenTable::uniform(rows, columns, denominator, cell);
            stated(calls, &table, &[ALL_WHOLE])?;
        }
    }
    Ok(())
}

/// Small tables with the replies to all their arrays. Together these have every kind with
/// every direction, so that none goes untested.
fn every_kind(calls: &mut Calls) -> Result<(), Difference> {
    let mut seen = BTreeSet::new();
    for (table, replies) in small_tables() {
        stated(calls, &table, &replies)?;
        seen.extend(replies.iter().map(|reply| (reply[0], reply[3])));
    }
    let rounded = (1..=4).flat_map(|kind| [(kind, 1), (kind, 2)]);
    let all: BTreeSet<(u32, u32)> = rounded.chain([(1, 0)]).collect();
    require(seen == all, || {
        format!("kinds with directions: {seen:?}, not {all:?}\n")
    })
}

/// The listing, and tables for what it does not have: the grand total, a cell rounded up, a
/// row total rounded up, a column total rounded up, and the grand total rounded up.
fn small_tables() -> [(GivenTable, Vec<[u32; REPLY]>); 5] {
    [
        (
            papers::listing().table,
            vec![[3, 0, 1, 1], [2, 1, 0, 1], [1, 1, 1, 1], ALL_WHOLE],
        ),
        (
            GivenTable::by_rows(10, &[[22, 1, 0], [14, 16, 6]]),
            vec![
                [4, 0, 0, 1],
                [3, 0, 1, 1],
                [1, 2, 3, 2],
                [2, 1, 0, 1],
                [1, 1, 1, 1],
                ALL_WHOLE,
            ],
        ),
        (
            GivenTable::by_rows(4, &[[2, 5, 6], [6, 3, 0]]),
            vec![[2, 2, 0, 2], [1, 1, 1, 1], [1, 1, 3, 1], ALL_WHOLE],
        ),
        (
            GivenTable::by_rows(4, &[[0, 5, 3], [2, 5, 6]]),
            vec![[3, 0, 3, 2], [1, 2, 1, 1], [1, 1, 2, 1], ALL_WHOLE],
        ),
        (
            GivenTable::by_rows(4, &GRAND_TOTAL_UP),
            vec![[4, 0, 0, 2], [1, 1, 1, 1], [1, 1, 2, 1], ALL_WHOLE],
        ),
    ]
}
