//! The opening call.

mod literal;

use compare::buffer::Buffer;
use compare::cases::{Call, Calls, Difference, Kind, Named};
use compare::damage::{change_field, fields};
use compare::plans::{
    make_foreign, plan_of, random_plan, split_fully, split_off, stated_plan, swing,
};
use reference::{encode, number_of, Plan, Table};
use tables::papers::{self, Example};
use tables::Generator;

pub const KINDS: &[Kind] = &[
    Kind {
        name: "open-plans",
        cases: 3000,
        compare: planned,
    },
    Kind {
        name: "open-foreign-plans",
        cases: 10_000,
        compare: foreign,
    },
    Kind {
        name: "open-grand-totals",
        cases: 10_000,
        compare: grand_totals,
    },
    Kind {
        name: "open-bytes",
        cases: 200,
        compare: changed_bytes,
    },
    Kind {
        name: "open-lengths",
        cases: 200,
        compare: changed_lengths,
    },
    Kind {
        name: "open-fields",
        cases: 300,
        compare: changed_fields,
    },
    Kind {
        name: "open-bounds",
        cases: 20_000,
        compare: beside_bounds,
    },
    Kind {
        name: "open-wrapping-weights",
        cases: 1000,
        compare: wrapping_weights,
    },
];

pub const NAMED: &[Named] = &[
    Named {
        name: "open-one-byte-longer",
        compare: one_byte_longer,
    },
    Named {
        name: "open-weights-one-short",
        compare: weights_one_short,
    },
    Named {
        name: "open-equal-arrays",
        compare: equal_arrays,
    },
    Named {
        name: "open-document-001",
        compare: |calls| stated(calls, papers::document_001(), 0),
    },
    Named {
        name: "open-document-004-common-solution",
        compare: |calls| stated(calls, papers::problem_2_1_common(), 0),
    },
    Named {
        name: "open-document-004-method-3",
        compare: |calls| stated(calls, papers::problem_2_1_method_3(), 0),
    },
    Named {
        name: "open-grand-total-not-kept",
        compare: |calls| stated(calls, papers::grand_total_not_kept(), 6),
    },
    Named {
        name: "open-negative-cells",
        compare: negative_cells,
    },
    Named {
        name: "open-literal",
        compare: literal::plans,
    },
];

#[derive(Clone, Debug, PartialEq)]
struct Open {
    plan: Buffer<u8>,
}

impl Call for Open {
    fn reference(&mut self) -> u32 {
        number_of(reference::open(self.plan.lent()).map(|_| ()))
    }

    fn library(&mut self) -> u32 {
        lufodimi_sys::open(self.plan.lent())
    }
}

fn compare_bytes(
    generator: &mut Generator,
    calls: &mut Calls,
    bytes: &[u8],
) -> Result<(), Difference> {
    let plan = Buffer::holding(generator, bytes);
    calls.compare(&Open { plan }).map(|_| ())
}

/// The plan of a random table.
fn planned(generator: &mut Generator, calls: &mut Calls) -> Result<(), Difference> {
    let plan = random_plan(generator, 12);
    compare_bytes(generator, calls, &encode(&plan))
}

/// Plans that nobody here has planned, some of which do not open.
fn foreign(generator: &mut Generator, calls: &mut Calls) -> Result<(), Difference> {
    let mut plan = random_plan(generator, 5);
    for _ in 0..6 {
        make_foreign(generator, &mut plan);
        compare_bytes(generator, calls, &encode(&plan))?;
    }
    Ok(())
}

/// Plans of which only a grand total can be wrong: they open just if each array's is the
/// table's, rounded down or up.
fn grand_totals(generator: &mut Generator, calls: &mut Calls) -> Result<(), Difference> {
    let mut plan = random_plan(generator, 5);
    for _ in 0..3 {
        swing(generator, &mut plan);
        let planned: u64 = plan.table.cells.iter().sum();
        let down = planned / plan.table.denominator;
        let up = planned.div_ceil(plan.table.denominator);
        let kept = plan
            .arrays
            .iter()
            .all(|array| (down..=up).contains(&array.counts.iter().sum()));
        stated_bytes(calls, &encode(&plan), if kept { 0 } else { 6 })?;
    }
    Ok(())
}

/// Each byte of a plan changed to several other values.
fn changed_bytes(generator: &mut Generator, calls: &mut Calls) -> Result<(), Difference> {
    let bytes = encode(&random_plan(generator, 4));
    for position in 0..bytes.len() {
        let byte = bytes[position];
        let random = generator.bits() as u8;
        let values = [
            byte ^ 1,
            byte ^ 0x80,
            byte.wrapping_add(1),
            !byte,
            0,
            255,
            random,
        ];
        for other in values.into_iter().filter(|&other| other != byte) {
            let mut changed = bytes.clone();
            changed[position] = other;
            compare_bytes(generator, calls, &changed)?;
        }
    }
    Ok(())
}

/// A plan cut off at every length, and with bytes after it.
fn changed_lengths(generator: &mut Generator, calls: &mut Calls) -> Result<(), Difference> {
    let bytes = encode(&random_plan(generator, 4));
    for length in 0..bytes.len() {
        compare_bytes(generator, calls, &bytes[..length])?;
    }
    for extra in 1..40 {
        let after: Vec<u8> = (0..extra)
            .map(|_| (generator.bits() & generator.pick(&[0, 255])) as u8)
            .collect();
        compare_bytes(generator, calls, &[&bytes[..], &after].concat())?;
    }
    Ok(())
}

/// Each field of a plan changed to several values, and random pairs of fields.
fn changed_fields(generator: &mut Generator, calls: &mut Calls) -> Result<(), Difference> {
    let plan = random_plan(generator, 3);
    let bytes = encode(&plan);
    let fields = fields(&plan);
    for field in &fields {
        for value in field.other_values(&bytes) {
            let mut changed = bytes.clone();
            field.write(&mut changed, value);
            compare_bytes(generator, calls, &changed)?;
        }
    }
    for _ in 0..500 {
        let mut changed = bytes.clone();
        change_field(generator, &fields, &mut changed);
        change_field(generator, &fields, &mut changed);
        compare_bytes(generator, calls, &changed)?;
    }
    Ok(())
}

/// Plans with equal arrays and whole cells, in which everything agrees except that
/// a number may be beside its bound.
fn beside_bounds(generator: &mut Generator, calls: &mut Calls) -> Result<(), Difference> {
    let sizes = [1, 2, 12, 1, 2, 12, 0, 13];
    let (rows, columns) = (generator.pick(&sizes), generator.pick(&sizes));
    let denominator = generator.pick(&[170, 171, 65_535, 170, 171, 65_535, 0, 1, 65_536]);
    let count = generator.pick(&[0, 1, 1000, 0, 1, 1000, 1001, 65_535]);
    let arrays = generator.pick(&[1, 2, 170, 1, 2, 170, 0, 171]);
    let counts: Vec<u64> = (0..rows * columns)
        .map(|_| count * generator.below(2))
        .collect();
    let table = Table {
        rows,
        columns,
        denominator,
        cells: counts.iter().map(|count| count * denominator).collect(),
    };
    let arrays = weights_of(denominator, arrays)
        .into_iter()
        .map(|weight| (weight, counts.clone()));
    compare_bytes(generator, calls, &encode(&Plan::new(table, arrays)))
}

/// Weights that add up to the sum: 1 as long as there is one left, and the rest last.
fn weights_of(sum: u64, count: u64) -> Vec<u64> {
    let mut left = sum;
    (0..count)
        .map(|place| {
            let weight = if place + 1 == count {
                left
            } else {
                left.min(1)
            };
            left -= weight;
            weight
        })
        .collect()
}

/// An array twice, with weights that add up to its weight in 32 bits only.
fn wrapping_weights(generator: &mut Generator, calls: &mut Calls) -> Result<(), Difference> {
    let mut plan = random_plan(generator, 4);
    let chosen = generator.place(plan.arrays.len());
    split_off(&mut plan, chosen, 0);
    let weight = plan.arrays[chosen].weight;
    let above = generator.between(1, 65_536);
    plan.arrays[chosen].weight = weight + above;
    plan.arrays.last_mut().expect("there are arrays").weight = (1 << 32) - above;
    compare_bytes(generator, calls, &encode(&plan))
}

/// Bytes with the answer that the papers state.
fn stated_bytes(calls: &mut Calls, bytes: &[u8], answer: u32) -> Result<(), Difference> {
    let plan = Buffer::holding(&mut Generator::new(0), bytes);
    calls.compare_stated(&Open { plan }, answer).map(|_| ())
}

/// Arrays of the papers with the answer that they state.
fn stated(calls: &mut Calls, example: Example, answer: u32) -> Result<(), Difference> {
    stated_bytes(calls, &encode(&stated_plan(example)), answer)
}

fn one_byte_longer(calls: &mut Calls) -> Result<(), Difference> {
    let bytes = encode(&stated_plan(papers::listing()));
    stated_bytes(calls, &[&bytes[..], &[0]].concat(), 5)
}

fn weights_one_short(calls: &mut Calls) -> Result<(), Difference> {
    let mut plan = stated_plan(papers::listing());
    plan.arrays[2].weight -= 1;
    stated_bytes(calls, &encode(&plan), 6)?;
    stated(calls, papers::weights_one_short(), 6)
}

/// One cell of -1 over 1 and over 2, with arrays that would make plans if cells and counts
/// had signs.
fn negative_cells(calls: &mut Calls) -> Result<(), Difference> {
    let [cell, count] = [-1_i32 as u32 as u64, -1_i16 as u16 as u64];
    for arrays in [vec![(1, [count])], vec![(1, [count]), (1, [0])]] {
        let table = Table {
            rows: 1,
            columns: 1,
            denominator: arrays.len() as u64,
            cells: vec![cell],
        };
        stated_bytes(calls, &encode(&Plan::new(table, arrays)), 6)?;
    }
    Ok(())
}

/// The plan of document 002's table, as samples that have equal chances and recur.
fn equal_arrays(calls: &mut Calls) -> Result<(), Difference> {
    let mut plan = plan_of(&papers::document_002());
    let different = plan.arrays.len();
    split_fully(&mut plan);
    assert!(different < plan.arrays.len(), "an array recurs");
    stated_bytes(calls, &encode(&plan), 0)
}
