//! The draw call.

mod literal;

use compare::buffer::{enough, lengths_around, Buffer};
use compare::cases::{require, Call, Calls, Difference, Kind, Named};
use compare::damage::good_and_damaged;
use compare::plans::{random_opening_plan, stated_plan};
use reference::{encode, number_of, Plan};
use tables::{papers, Generator};

pub const KINDS: &[Kind] = &[
    Kind {
        name: "draw-numbers",
        cases: 400,
        compare: numbers,
    },
    Kind {
        name: "draw-refusals",
        cases: 400,
        compare: refusals,
    },
];

pub const NAMED: &[Named] = &[
    Named {
        name: "draw-listing",
        compare: listing,
    },
    Named {
        name: "draw-literal",
        compare: literal::calls,
    },
    Named {
        name: "draw-literal-plans",
        compare: literal::stored_plans,
    },
];

#[derive(Clone, Debug, PartialEq)]
struct Draw {
    plan: Buffer<u8>,
    number: u32,
    counts: Buffer<u16>,
}

impl Call for Draw {
    fn reference(&mut self) -> u32 {
        number_of(reference::draw(
            self.plan.lent(),
            self.number,
            self.counts.lent_mut(),
        ))
    }

    fn library(&mut self) -> u32 {
        lufodimi_sys::draw(self.plan.lent(), self.number, self.counts.lent_mut())
    }
}

/// Numbers at the ends of every array's range, some between, and some too large.
fn notable_numbers(generator: &mut Generator, plan: &Plan) -> Vec<u32> {
    let denominator = plan.table.denominator as u32;
    let mut numbers = vec![denominator, denominator + 1, u32::MAX];
    let mut before = 0;
    for array in &plan.arrays {
        let weight = array.weight as u32;
        numbers.extend([before, before + weight - 1]);
        before += weight;
    }
    for _ in 0..5 {
        numbers.push(generator.below(u64::from(denominator)) as u32);
    }
    numbers
}

/// A random plan with all notable numbers.
fn numbers(generator: &mut Generator, calls: &mut Calls) -> Result<(), Difference> {
    let plan = random_opening_plan(generator, 12);
    let bytes = encode(&plan);
    for number in notable_numbers(generator, &plan) {
        let room = enough(generator, plan.table.size());
        calls.compare(&Draw {
            plan: Buffer::holding(generator, &bytes),
            number,
            counts: Buffer::random(generator, room),
        })?;
    }
    Ok(())
}

/// Good and damaged plans with good and bad numbers and buffers of all lengths.
fn refusals(generator: &mut Generator, calls: &mut Calls) -> Result<(), Difference> {
    let plan = random_opening_plan(generator, 4);
    let denominator = plan.table.denominator;
    for bytes in good_and_damaged(generator, &plan) {
        for number in [
            generator.below(denominator) as u32,
            denominator as u32,
            u32::MAX,
        ] {
            for room in lengths_around(generator, plan.table.size()) {
                calls.compare(&Draw {
                    plan: Buffer::holding(generator, &bytes),
                    number,
                    counts: Buffer::random(generator, room),
                })?;
            }
        }
    }
    Ok(())
}

/// The array of so many cells that both write for a number, which is accepted.
pub fn array(
    calls: &mut Calls,
    plan: &[u8],
    number: u32,
    cells: usize,
) -> Result<Vec<u16>, Difference> {
    let generator = &mut Generator::new(0);
    let call = Draw {
        plan: Buffer::holding(generator, plan),
        number,
        counts: Buffer::random(generator, cells),
    };
    let found = calls.compare_stated(&call, 0)?;
    Ok(found.counts.lent().to_vec())
}

/// A number with the array that the papers state for it.
pub fn stated_array(
    calls: &mut Calls,
    plan: &[u8],
    number: u32,
    stated: &[u64],
) -> Result<(), Difference> {
    let found = array(calls, plan, number, stated.len())?;
    let counts = found.iter().map(|&count| u64::from(count));
    require(counts.eq(stated.iter().copied()), || {
        format!("draw {number} of {plan:?}\nboth write {found:?}, the papers {stated:?}\n")
    })
}

/// The listing's numbers with the arrays that they belong to.
fn listing(calls: &mut Calls) -> Result<(), Difference> {
    let plan = stated_plan(papers::listing());
    let bytes = encode(&plan);
    for (number, array) in papers::LISTING_DRAWS.into_iter().enumerate() {
        stated_array(calls, &bytes, number as u32, &plan.arrays[array].counts)?;
    }
    Ok(())
}
