//! The call that tells an array of a plan.

use compare::buffer::{enough, lengths_around, Buffer};
use compare::cases::{over_rows, Call, Calls, Difference};
use compare::damage::good_and_damaged;
use compare::plans::random_opening_plan;
use reference::{encode, number_of, Plan};
use tables::literal::stored;
use tables::Generator;

#[derive(Clone, Debug, PartialEq)]
pub struct Array {
    pub plan: Buffer<u8>,
    pub number: u32,
    pub weight: Buffer<u32>,
    pub counts: Buffer<u16>,
}

impl Array {
    /// With buffers of these lengths for the weight and for the counts.
    fn of(generator: &mut Generator, plan: &[u8], number: u32, room: [usize; 2]) -> Array {
        Array {
            plan: Buffer::holding(generator, plan),
            number,
            weight: Buffer::random(generator, room[0]),
            counts: Buffer::random(generator, room[1]),
        }
    }
}

impl Call for Array {
    fn reference(&mut self) -> u32 {
        number_of(reference::array(
            self.plan.lent(),
            self.number,
            self.weight.lent_mut(),
            self.counts.lent_mut(),
        ))
    }

    fn library(&mut self) -> u32 {
        lufodimi_sys::array(
            self.plan.lent(),
            self.number,
            self.weight.lent_mut(),
            self.counts.lent_mut(),
        )
    }
}

/// Numbers that a plan does not have: none, one more than there are, and some far above,
/// which a narrower number would take for 1 or 0.
fn missing(plan: &Plan) -> [u32; 7] {
    let above = plan.arrays.len() as u32 + 1;
    [0, above, 257, 65_537, 1 << 31, (1 << 31) + 1, u32::MAX]
}

/// A random plan with every array and with numbers that it does not have.
pub fn plans(generator: &mut Generator, calls: &mut Calls) -> Result<(), Difference> {
    let plan = random_opening_plan(generator, 12);
    let bytes = encode(&plan);
    for number in (1..=plan.arrays.len() as u32).chain(missing(&plan)) {
        let room = [1, plan.table.size()].map(|needed| enough(generator, needed));
        calls.compare(&Array::of(generator, &bytes, number, room))?;
    }
    Ok(())
}

/// Good and damaged plans with arrays that they have and have not and buffers of all
/// lengths.
pub fn refusals(generator: &mut Generator, calls: &mut Calls) -> Result<(), Difference> {
    let plan = random_opening_plan(generator, 4);
    let last = plan.arrays.len() as u32;
    for bytes in good_and_damaged(generator, &plan) {
        for number in [0, 1, last, last + 1, u32::MAX] {
            for weight in lengths_around(generator, 1) {
                for counts in lengths_around(generator, plan.table.size()) {
                    calls.compare(&Array::of(generator, &bytes, number, [weight, counts]))?;
                }
            }
        }
    }
    Ok(())
}

/// What a stored plan holds is what its arrays are, counted from 1.
pub fn stored_plans(calls: &mut Calls) -> Result<(), Difference> {
    let generator = &mut Generator::new(0);
    over_rows(&stored::stored(), |row| {
        for (number, (weight, counts)) in (1..).zip(&row.plan.arrays) {
            let call = Array::of(generator, row.bytes, number, [1, counts.len()]);
            let counts: Vec<u16> = counts.iter().map(|&count| count as u16).collect();
            let left = Array {
                weight: call.weight.with(&[*weight as u32]),
                counts: call.counts.with(&counts),
                ..call.clone()
            };
            calls.compare_left(&call, 0, &left)?;
        }
        Ok(())
    })
}
