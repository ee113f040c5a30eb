//! The pool call.

mod literal;

use compare::buffer::{lengths_around, Buffer};
use compare::cases::{require, Call, Calls, Difference, Kind, Named};
use compare::pairs::with_negative_cells;
use compare::pairs::{accepted_and_refused, pairs_turned_back, random_pair};
use lufodimi_sys::LUFODIMI_LONGEST_PLAN;
use reference::{entries, number_of, open, Plan};
use tables::{Generator, GivenPair, GivenPart};

pub const KINDS: &[Kind] = &[
    Kind {
        name: "pool-tables",
        cases: 3000,
        compare: random_pairs,
    },
    Kind {
        name: "pool-refusals",
        cases: 8,
        compare: refusals,
    },
    Kind {
        name: "pool-negative-cells",
        cases: 500,
        compare: negative_cells,
    },
    Kind {
        name: "pool-planned",
        cases: 500,
        compare: planned,
    },
];

pub const NAMED: &[Named] = &[
    Named {
        name: "pool-literal",
        compare: literal::calls,
    },
    Named {
        name: "pool-recall",
        compare: literal::recall,
    },
];

#[derive(Clone, Debug, PartialEq)]
struct Pooling {
    rows: u32,
    columns: u32,
    first: LentPart,
    second: LentPart,
    denominator: Buffer<u32>,
    cells: Buffer<u32>,
}

/// One of the tables as it is lent.
#[derive(Clone, Debug, PartialEq)]
struct LentPart {
    denominator: u32,
    cells: Buffer<u32>,
}

impl LentPart {
    fn of(generator: &mut Generator, part: &GivenPart) -> LentPart {
        LentPart {
            denominator: part.denominator,
            cells: Buffer::holding(generator, &part.cells),
        }
    }

    /// The cells as entries are made of them.
    fn numbers(&self) -> Vec<u64> {
        self.cells.lent().iter().copied().map(u64::from).collect()
    }
}

impl Pooling {
    /// With buffers of these lengths for the pooled denominator and the pooled cells.
    fn of(generator: &mut Generator, pair: &GivenPair, room: [usize; 2]) -> Pooling {
        Pooling {
            rows: pair.rows,
            columns: pair.columns,
            first: LentPart::of(generator, &pair.first),
            second: LentPart::of(generator, &pair.second),
            denominator: Buffer::random(generator, room[0]),
            cells: Buffer::random(generator, room[1]),
        }
    }
}

impl Call for Pooling {
    fn reference(&mut self) -> u32 {
        number_of(reference::pool(
            self.rows,
            self.columns,
            self.first.denominator,
            self.first.cells.lent(),
            self.second.denominator,
            self.second.cells.lent(),
            self.denominator.lent_mut(),
            self.cells.lent_mut(),
        ))
    }

    fn library(&mut self) -> u32 {
        lufodimi_sys::pool(
            self.rows,
            self.columns,
            self.first.denominator,
            self.first.cells.lent(),
            self.second.denominator,
            self.second.cells.lent(),
            self.denominator.lent_mut(),
            self.cells.lent_mut(),
        )
    }
}

/// Two accepted tables, with buffers of all lengths.
fn random_pairs(generator: &mut Generator, calls: &mut Calls) -> Result<(), Difference> {
    let pair = random_pair(generator, 12);
    for denominators in lengths_around(generator, 1) {
        for cells in lengths_around(generator, pair.first.cells.len()) {
            calls.compare(&Pooling::of(generator, &pair, [denominators, cells]))?;
        }
    }
    Ok(())
}

/// Two tables with all refusals, of one of them, of both and of the pooled table, with
/// buffers that are long enough, and with one or both too short.
fn refusals(generator: &mut Generator, calls: &mut Calls) -> Result<(), Difference> {
    for pair in accepted_and_refused(generator, 4) {
        let needed = pair.first.cells.len();
        for changed in pairs_turned_back(generator, &pair) {
            for room in [[1, needed], [0, needed], [1, needed - 1], [0, 0]] {
                calls.compare(&Pooling::of(generator, &changed, room))?;
            }
        }
    }
    Ok(())
}

/// Cells below 0 in one of the tables or in both, with buffers that are long enough and
/// with none: 4.
fn negative_cells(generator: &mut Generator, calls: &mut Calls) -> Result<(), Difference> {
    let pair = random_pair(generator, 12);
    for changed in with_negative_cells(generator, &pair) {
        for room in [[1, changed.first.cells.len()], [0, 0]] {
            calls.compare_stated(&Pooling::of(generator, &changed, room), 4)?;
        }
    }
    Ok(())
}

/// A pooled table that is accepted has a plan, which keeps what both tables expect.
fn planned(generator: &mut Generator, calls: &mut Calls) -> Result<(), Difference> {
    loop {
        let pair = random_pair(generator, 12);
        let room = [1, pair.first.cells.len()];
        let found = calls.compare(&Pooling::of(generator, &pair, room))?;
        if found.answer == 0 {
            return plan_keeps_both(&found.after);
        }
    }
}

/// In the plan of the pooled table, the weighted counts of each cell, row and column and
/// of the whole are just what the two tables expect there together.
fn plan_keeps_both(pooled: &Pooling) -> Result<(), Difference> {
    let found = entries_of(pooled, &weighted(&plan_of(pooled)?));
    let first = entries_of(pooled, &pooled.first.numbers());
    let second = entries_of(pooled, &pooled.second.numbers());
    let [d, e, m] = [
        pooled.first.denominator,
        pooled.second.denominator,
        pooled.denominator.lent()[0],
    ]
    .map(u128::from);
    let is_kept = |at: usize| found[at] * d * e == (first[at] * e + second[at] * d) * m;
    require((0..found.len()).all(is_kept), || {
        format!("{pooled:?}\nits plan has the entries {found:?}\n")
    })
}

/// The library's plan of a pooled table. A refusal is not the length of one that opens.
fn plan_of(pooled: &Pooling) -> Result<Plan, Difference> {
    let mut bytes = vec![0; LUFODIMI_LONGEST_PLAN];
    let length = lufodimi_sys::plan(
        pooled.rows,
        pooled.columns,
        pooled.denominator.lent()[0],
        pooled.cells.lent(),
        &mut bytes,
    );
    open(&bytes[..length as usize]).map_err(|refusal| Difference {
        text: format!("{pooled:?}\nplanning returns {length}, and opening {refusal:?}\n"),
    })
}

/// The weighted counts of a plan, added up cell by cell.
fn weighted(plan: &Plan) -> Vec<u64> {
    let sum = |cell: usize| {
        let arrays = plan.arrays.iter();
        arrays.map(|array| array.weight * array.counts[cell]).sum()
    };
    (0..plan.table.size()).map(sum).collect()
}

/// Cells, row totals, column totals and grand total.
fn entries_of(pooled: &Pooling, cells: &[u64]) -> Vec<u128> {
    let all = entries(pooled.rows as usize, pooled.columns as usize, cells);
    all.into_iter().map(u128::from).collect()
}
