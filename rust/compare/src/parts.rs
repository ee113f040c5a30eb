//! The calls that tell a plan's sizes, its cells and its arrays.

mod array;
mod literal;

use compare::buffer::{lengths_around, Buffer};
use compare::cases::{Call, Calls, Difference, Kind, Named};
use compare::damage::good_and_damaged;
use compare::plans::random_opening_plan;
use reference::number_of;
use tables::Generator;

pub const KINDS: &[Kind] = &[
    Kind {
        name: "sizes-plans",
        cases: 400,
        compare: |generator, calls| plans(generator, calls, Part::Sizes),
    },
    Kind {
        name: "cells-plans",
        cases: 400,
        compare: |generator, calls| plans(generator, calls, Part::Cells),
    },
    Kind {
        name: "array-plans",
        cases: 150,
        compare: array::plans,
    },
    Kind {
        name: "array-refusals",
        cases: 150,
        compare: array::refusals,
    },
];

pub const NAMED: &[Named] = &[
    Named {
        name: "sizes-literal",
        compare: literal::sizes,
    },
    Named {
        name: "cells-literal",
        compare: literal::cells,
    },
    Named {
        name: "array-literal",
        compare: literal::arrays,
    },
    Named {
        name: "array-stored-plans",
        compare: array::stored_plans,
    },
];

/// What is told of a plan.
#[derive(Clone, Copy, Debug, PartialEq)]
enum Part {
    Sizes,
    Cells,
}

#[derive(Clone, Debug, PartialEq)]
struct Telling {
    part: Part,
    plan: Buffer<u8>,
    numbers: Buffer<u32>,
}

impl Call for Telling {
    fn reference(&mut self) -> u32 {
        let call = match self.part {
            Part::Sizes => reference::sizes,
            Part::Cells => reference::cells,
        };
        number_of(call(self.plan.lent(), self.numbers.lent_mut()))
    }

    fn library(&mut self) -> u32 {
        let call = match self.part {
            Part::Sizes => lufodimi_sys::sizes,
            Part::Cells => lufodimi_sys::cells,
        };
        call(self.plan.lent(), self.numbers.lent_mut())
    }
}

/// Good and damaged plans with buffers of all lengths.
fn plans(generator: &mut Generator, calls: &mut Calls, part: Part) -> Result<(), Difference> {
    let plan = random_opening_plan(generator, 12);
    let needed = match part {
        Part::Sizes => 4,
        Part::Cells => plan.table.size(),
    };
    for bytes in good_and_damaged(generator, &plan) {
        for room in lengths_around(generator, needed) {
            calls.compare(&Telling {
                part,
                plan: Buffer::holding(generator, &bytes),
                numbers: Buffer::random(generator, room),
            })?;
        }
    }
    Ok(())
}
