//! Variances and covariances: the call, and the program that reads plans one after another.

mod literal;
mod program;

use compare::buffer::{enough, Buffer};
use compare::cases::{Call, Calls, Difference, Kind, Named};
use compare::damage::good_and_damaged;
use compare::plans::{make_foreign, plan_of, random_opening_plan, random_plan, stated_plan, swing};
use reference::{encode, number_of, Plan};
use tables::{papers, Generator, GivenTable};

pub const KINDS: &[Kind] = &[
    Kind {
        name: "variances-plans",
        cases: 1500,
        compare: plans,
    },
    Kind {
        name: "variances-foreign-plans",
        cases: 3000,
        compare: foreign_plans,
    },
    Kind {
        name: "variances-refusals",
        cases: 400,
        compare: refusals,
    },
    Kind {
        name: "variances-program-plans",
        cases: 150,
        compare: program::plans,
    },
    Kind {
        name: "variances-program-damaged-plans",
        cases: 300,
        compare: program::damaged_plans,
    },
];

pub const NAMED: &[Named] = &[
    Named {
        name: "variances-document-001",
        compare: |calls| stated(calls, &stated_plan(papers::document_001()), [48, -6, 6]),
    },
    Named {
        name: "variances-document-002",
        compare: |calls| stated(calls, &plan_of(&papers::document_002()), [1266, -72, 84]),
    },
    Named {
        name: "variances-document-004",
        compare: document_004,
    },
    Named {
        name: "variances-largest-sum",
        compare: largest_sum,
    },
    Named {
        name: "variances-literal",
        compare: literal::calls,
    },
    Named {
        name: "variances-program-literal",
        compare: literal::outputs,
    },
    Named {
        name: "variances-program-cut-everywhere",
        compare: program::cut_everywhere,
    },
    Named {
        name: "variances-program-bytes-left-over",
        compare: program::bytes_left_over,
    },
    Named {
        name: "variances-program-byte-by-byte",
        compare: program::byte_by_byte,
    },
    Named {
        name: "variances-program-as-it-goes",
        compare: program::as_it_goes,
    },
    Named {
        name: "variances-program-longest-plans",
        compare: program::longest_plans,
    },
    Named {
        name: "variances-program-thousands",
        compare: program::thousands,
    },
];

#[derive(Clone, Debug, PartialEq)]
struct Telling {
    plan: Buffer<u8>,
    numerators: Buffer<i64>,
}

impl Call for Telling {
    fn reference(&mut self) -> u32 {
        number_of(reference::variances(
            self.plan.lent(),
            self.numerators.lent_mut(),
        ))
    }

    fn library(&mut self) -> u32 {
        lufodimi_sys::variances(self.plan.lent(), self.numerators.lent_mut())
    }
}

/// A stored plan with a buffer of this length.
fn compare_bytes(
    generator: &mut Generator,
    calls: &mut Calls,
    bytes: &[u8],
    room: usize,
) -> Result<(), Difference> {
    let call = Telling {
        plan: Buffer::holding(generator, bytes),
        numerators: Buffer::random(generator, room),
    };
    calls.compare(&call).map(drop)
}

/// The plan of a random table, sometimes as somebody else would have stored it.
fn plans(generator: &mut Generator, calls: &mut Calls) -> Result<(), Difference> {
    let bytes = encode(&random_opening_plan(generator, 12));
    let room = enough(generator, 3);
    compare_bytes(generator, calls, &bytes, room)
}

/// Plans that nobody here has planned, some of which do not open.
fn foreign_plans(generator: &mut Generator, calls: &mut Calls) -> Result<(), Difference> {
    let mut plan = random_plan(generator, 5);
    for _ in 0..4 {
        if generator.once_in(3) {
            swing(generator, &mut plan);
        } else {
            make_foreign(generator, &mut plan);
        }
        compare_bytes(generator, calls, &encode(&plan), 3)?;
    }
    Ok(())
}

/// Good and damaged plans with buffers that are too short, just right and longer.
fn refusals(generator: &mut Generator, calls: &mut Calls) -> Result<(), Difference> {
    let plan = random_opening_plan(generator, 4);
    for bytes in good_and_damaged(generator, &plan) {
        for room in 0..=5 {
            compare_bytes(generator, calls, &bytes, room)?;
        }
    }
    Ok(())
}

/// A plan with the numerators that are stated of it.
fn stated(calls: &mut Calls, plan: &Plan, numerators: [i64; 3]) -> Result<(), Difference> {
    let generator = &mut Generator::new(0);
    let call = Telling {
        plan: Buffer::holding(generator, &encode(plan)),
        numerators: Buffer::random(generator, 3),
    };
    let left = Telling {
        numerators: call.numerators.with(&numerators),
        ..call.clone()
    };
    calls.compare_left(&call, 0, &left)
}

/// Two solutions to Problem 2.1, and the plan of Problem 2.4.
fn document_004(calls: &mut Calls) -> Result<(), Difference> {
    let common = stated_plan(papers::problem_2_1_common());
    stated(calls, &common, [186, -15, 25])?;
    let method_3 = stated_plan(papers::problem_2_1_method_3());
    stated(calls, &method_3, [186, -15, 15])?;
    let planned = plan_of(&papers::problem_2_4());
    stated(calls, &planned, [3_062_550, -198_478, 151_670])
}

/// The most cells, each with the largest variance: their sum needs more than 32 bits.
fn largest_sum(calls: &mut Calls) -> Result<(), Difference> {
    let plan = plan_of(&GivenTable::uniform(12, 12, 65_535, 32_767));
    let numerators = [154_614_104_064, -1_073_676_289, 1_073_709_056];
    stated(calls, &plan, numerators)
}
