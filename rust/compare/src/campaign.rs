//! The start and the campaign draw.

mod literal;

use compare::buffer::{enough, lengths_around, Buffer};
use compare::cases::{require, Call, Calls, Difference, Kind, Named};
use compare::damage::good_and_damaged;
use compare::plans::{plan_of, random_opening_plan, random_plan_up_to, swing};
use compare::records::{damage, Record, UNFIT, UNFIT_AFTER_A_ROUND};
use lufodimi_sys::lufodimi_record;
use reference::{bytes_of_bits, encode, entries, number_of, Plan, ROUNDS};
use tables::{evenly_spread, literal::campaign, Generator, GivenTable};

pub const KINDS: &[Kind] = &[
    Kind {
        name: "start-records",
        cases: 600,
        compare: starts,
    },
    Kind {
        name: "campaign-runs",
        cases: 400,
        compare: runs,
    },
    Kind {
        name: "campaign-foreign-runs",
        cases: 400,
        compare: foreign_runs,
    },
    Kind {
        name: "campaign-rounds",
        cases: 300,
        compare: three_rounds,
    },
    Kind {
        name: "campaign-last-rounds",
        cases: 200,
        compare: last_rounds,
    },
    Kind {
        name: "campaign-records",
        cases: 3000,
        compare: records,
    },
    Kind {
        name: "campaign-refusals",
        cases: 200,
        compare: refusals,
    },
    Kind {
        name: "campaign-largest-plans",
        cases: 10,
        compare: largest_plans,
    },
    Kind {
        name: "campaign-largest-tallies",
        cases: 20,
        compare: largest_tallies,
    },
];

pub const NAMED: &[Named] = &[
    Named {
        name: "campaign-over-one-number",
        compare: over_one_number,
    },
    Named {
        name: "campaign-unfit-records",
        compare: unfit_records,
    },
    Named {
        name: "campaign-over-and-refused-besides",
        compare: over_and_refused_besides,
    },
    Named {
        name: "start-literal",
        compare: literal::starts,
    },
    Named {
        name: "campaign-literal",
        compare: literal::draws,
    },
    Named {
        name: "campaign-literal-runs",
        compare: literal::runs,
    },
];

#[derive(Clone, Debug, PartialEq)]
struct Start {
    plan: Buffer<u8>,
    record: Record,
}

impl Call for Start {
    fn reference(&mut self) -> u32 {
        number_of(reference::start(
            self.plan.lent(),
            &mut self.record.taken,
            &mut self.record.rounds,
            self.record.bits.lent_mut(),
            self.record.tally.lent_mut(),
        ))
    }

    fn library(&mut self) -> u32 {
        let mut lent = lent_record(&self.record);
        let answer = lufodimi_sys::start(
            self.plan.lent(),
            &mut lent,
            self.record.bits.lent_mut(),
            self.record.tally.lent_mut(),
        );
        (self.record.taken, self.record.rounds) = (lent.taken, lent.rounds);
        answer
    }
}

#[derive(Clone, Debug, PartialEq)]
struct CampaignDraw {
    plan: Buffer<u8>,
    number: u32,
    record: Record,
    counts: Buffer<u16>,
}

impl Call for CampaignDraw {
    fn reference(&mut self) -> u32 {
        number_of(reference::campaign_draw(
            self.plan.lent(),
            self.number,
            &mut self.record.taken,
            &mut self.record.rounds,
            self.record.bits.lent_mut(),
            self.record.tally.lent_mut(),
            self.counts.lent_mut(),
        ))
    }

    fn library(&mut self) -> u32 {
        let mut lent = lent_record(&self.record);
        let answer = lufodimi_sys::campaign_draw(
            self.plan.lent(),
            self.number,
            &mut lent,
            self.record.bits.lent_mut(),
            self.record.tally.lent_mut(),
            self.counts.lent_mut(),
        );
        (self.record.taken, self.record.rounds) = (lent.taken, lent.rounds);
        answer
    }
}

/// The part of a record that the library gets as a struct.
fn lent_record(record: &Record) -> lufodimi_record {
    lufodimi_record {
        taken: record.taken,
        rounds: record.rounds,
    }
}

/// Good and damaged plans with arbitrary records of all lengths.
fn starts(generator: &mut Generator, calls: &mut Calls) -> Result<(), Difference> {
    let plan = random_opening_plan(generator, 4);
    let bits_needed = bytes_of_bits(plan.table.denominator);
    for bytes in good_and_damaged(generator, &plan) {
        for bits in lengths_around(generator, bits_needed) {
            for tally in lengths_around(generator, plan.table.size()) {
                calls.compare(&Start {
                    plan: Buffer::holding(generator, &bytes),
                    record: Record::random(generator, bits, tally),
                })?;
            }
        }
    }
    Ok(())
}

/// Campaigns on plans of random tables.
fn runs(generator: &mut Generator, calls: &mut Calls) -> Result<(), Difference> {
    let plan = random_plan_up_to(generator, 5, 100);
    run(generator, calls, &plan, 1)
}

/// Campaigns over three rounds and more.
fn three_rounds(generator: &mut Generator, calls: &mut Calls) -> Result<(), Difference> {
    let plan = random_plan_up_to(generator, 4, 12);
    run(generator, calls, &plan, 3)
}

/// Campaigns on plans that nobody here has planned, of which only a grand total can be
/// wrong.
fn foreign_runs(generator: &mut Generator, calls: &mut Calls) -> Result<(), Difference> {
    let mut plan = random_plan_up_to(generator, 5, 100);
    for _ in 0..generator.between(1, 3) {
        swing(generator, &mut plan);
    }
    run(generator, calls, &plan, 1)
}

/// A campaign from its start over all numbers, at least so many rounds, with repeats,
/// numbers that are too large and buffers that are too short in between.
fn run(
    generator: &mut Generator,
    calls: &mut Calls,
    plan: &Plan,
    rounds: u16,
) -> Result<(), Difference> {
    let size = plan.table.size();
    let bits = enough(generator, bytes_of_bits(plan.table.denominator));
    let tally = enough(generator, size);
    let start = Start {
        plan: Buffer::holding(generator, &encode(plan)),
        record: Record::random(generator, bits, tally),
    };
    let started = calls.compare(&start)?;
    let opens = started.answer == 0;
    let mut record = started.after.record;
    for number in numbers_of_run(generator, plan.table.denominator, rounds) {
        let room = enough(generator, size);
        let short = generator.once_in(8).then(|| generator.place(size));
        for room in short.into_iter().chain([room]) {
            let draw = CampaignDraw {
                plan: start.plan.clone(),
                number,
                record,
                counts: Buffer::random(generator, room),
            };
            record = calls.compare(&draw)?.after.record;
            require(!opens || keeps_bounds(plan, &record), || {
                format!("{plan:?}\nafter {number}, out of bounds: {record:?}\n")
            })?;
        }
    }
    require(!opens || record.rounds >= rounds, || {
        format!("{plan:?}\nall numbers came {rounds} times: {record:?}\n")
    })
}

/// Whether with m numbers taken in this round each entry of what it has drawn, the grand
/// total among them, is from m times the expected count rounded down to m times that
/// rounded up; so nothing where a round is just completed. What the round has drawn is the
/// tally without the rounds times the table.
fn keeps_bounds(plan: &Plan, record: &Record) -> bool {
    let (table, taken) = (&plan.table, u64::from(record.taken));
    let in_rounds = table
        .cells
        .iter()
        .map(|cell| u64::from(record.rounds) * cell);
    let tally = record.tally.lent().iter().zip(in_rounds);
    let in_round: Option<Vec<u64>> = tally.map(|(sum, before)| sum.checked_sub(before)).collect();
    let Some(drawn) = in_round else {
        return false;
    };
    let of_table = entries(table.rows, table.columns, &table.cells);
    let of_round = entries(table.rows, table.columns, &drawn);
    of_table.iter().zip(&of_round).all(|(entry, drawn)| {
        let (down, up) = (entry / table.denominator, entry.div_ceil(table.denominator));
        (taken * down..=taken * up).contains(drawn)
    })
}

/// So many times every number twice, and some that are too large, in a random order. Each
/// time completes a round.
fn numbers_of_run(generator: &mut Generator, denominator: u64, rounds: u16) -> Vec<u32> {
    let denominator = denominator as u32;
    let mut all = Vec::new();
    for _ in 0..rounds {
        let mut numbers: Vec<u32> = (0..denominator).chain(0..denominator).collect();
        for _ in 0..denominator / 4 + 1 {
            numbers.push(denominator + generator.below(3) as u32);
            numbers.push(generator.pick(&[u32::MAX, 65_535, 65_536, 1 << 31]));
        }
        generator.shuffle(&mut numbers);
        all.extend(numbers);
    }
    all
}

/// From the last free number of the 999th round to the end of the thousandth; then 7 and 8
/// are as before, and all other draws get 13.
fn last_rounds(generator: &mut Generator, calls: &mut Calls) -> Result<(), Difference> {
    let plan = random_plan_up_to(generator, 3, 30);
    let (size, denominator) = (plan.table.size(), plan.table.denominator as u32);
    let stored = Buffer::holding(generator, &encode(&plan));
    let mut record = Record::fitting_in(generator, &plan, ROUNDS - 2, 4);
    let mut numbers: Vec<u32> = (0..denominator).collect();
    generator.shuffle(&mut numbers);
    let first = record.free_number(generator, &plan);
    for number in [first].iter().chain(&numbers) {
        let draw = CampaignDraw {
            plan: stored.clone(),
            number: *number,
            record,
            counts: Buffer::random(generator, size),
        };
        record = calls.compare_stated(&draw, 0)?.record;
        require(keeps_bounds(&plan, &record), || {
            format!("{plan:?}\nafter {number}, out of bounds: {record:?}\n")
        })?;
    }
    require((record.rounds, record.taken) == (ROUNDS, 0), || {
        format!("{plan:?}\nthe last number does not end the last round: {record:?}\n")
    })?;
    for (number, room, stated) in [
        (denominator, size - 1, 7),
        (0, size - 1, 7),
        (denominator, size, 8),
        (u32::MAX, size, 8),
    ]
    .into_iter()
    .chain(numbers.iter().map(|&number| (number, size, 13)))
    {
        let draw = CampaignDraw {
            plan: stored.clone(),
            number,
            record: record.clone(),
            counts: Buffer::random(generator, room),
        };
        calls.compare_stated(&draw, stated)?;
    }
    Ok(())
}

/// A record that fits, as it is and damaged.
fn records(generator: &mut Generator, calls: &mut Calls) -> Result<(), Difference> {
    let plan = random_plan_up_to(generator, 4, 300);
    let mut record = Record::fitting(generator, &plan);
    let free = record.free_number(generator, &plan);
    for _ in 0..3 {
        let room = enough(generator, plan.table.size());
        let any = generator.below(plan.table.denominator) as u32;
        calls.compare(&CampaignDraw {
            plan: Buffer::holding(generator, &encode(&plan)),
            number: generator.pick(&[any, free]),
            record: record.clone(),
            counts: Buffer::random(generator, room),
        })?;
        damage(generator, &plan, &mut record);
    }
    Ok(())
}

/// Good and damaged plans with good and bad numbers, good and damaged records, and
/// buffers of all lengths.
fn refusals(generator: &mut Generator, calls: &mut Calls) -> Result<(), Difference> {
    let plan = random_plan_up_to(generator, 3, 60);
    let good = Record::fitting(generator, &plan);
    let mut damaged = good.clone();
    damage(generator, &plan, &mut damaged);
    let short = short_records(generator, &plan);
    for bytes in good_and_damaged(generator, &plan) {
        for record in [&good, &damaged].into_iter().chain(&short) {
            for number in some_numbers(generator, &plan) {
                for room in lengths_around(generator, plan.table.size()) {
                    calls.compare(&CampaignDraw {
                        plan: Buffer::holding(generator, &bytes),
                        number,
                        record: record.clone(),
                        counts: Buffer::random(generator, room),
                    })?;
                }
            }
        }
    }
    Ok(())
}

/// Records whose bits or tally are short by one item or empty.
fn short_records(generator: &mut Generator, plan: &Plan) -> Vec<Record> {
    let bits = bytes_of_bits(plan.table.denominator);
    let tally = plan.table.size();
    [(bits - 1, tally), (0, tally), (bits, tally - 1), (bits, 0)]
        .map(|(bits, tally)| Record::random(generator, bits, tally))
        .to_vec()
}

/// Two numbers below the denominator and two that are not.
fn some_numbers(generator: &mut Generator, plan: &Plan) -> [u32; 4] {
    let denominator = plan.table.denominator;
    [
        generator.below(denominator) as u32,
        generator.below(denominator) as u32,
        denominator as u32,
        u32::MAX,
    ]
}

/// Twelve by twelve over the largest denominator, with many numbers taken.
fn largest_plans(generator: &mut Generator, calls: &mut Calls) -> Result<(), Difference> {
    let plan = plan_of(&evenly_spread(generator, 12, 12, 65_535));
    let stored = Buffer::holding(generator, &encode(&plan));
    let mut record = Record::fitting(generator, &plan);
    for _ in 0..20 {
        let draw = CampaignDraw {
            plan: stored.clone(),
            number: generator.below(65_540) as u32,
            record,
            counts: Buffer::random(generator, 144),
        };
        record = calls.compare(&draw)?.after.record;
    }
    damage(generator, &plan, &mut record);
    calls.compare(&CampaignDraw {
        plan: stored,
        number: generator.below(65_535) as u32,
        record,
        counts: Buffer::random(generator, 144),
    })?;
    Ok(())
}

/// Few cells over a large denominator that expect up to a thousand, in the last rounds, so
/// that the tally has more than 32 bits: the draw that completes a round, one that does not,
/// and one on a damaged record.
fn largest_tallies(generator: &mut Generator, calls: &mut Calls) -> Result<(), Difference> {
    let denominator = generator.pick(&[65_535, 65_528, 40_009]);
    let large = 1000 * denominator - generator.below(u64::from(denominator)) as u32;
    let plan = plan_of(&GivenTable::by_rows(
        denominator,
        &[[large, 1000 * denominator]],
    ));
    let stored = Buffer::holding(generator, &encode(&plan));
    for rounds in [65, ROUNDS - 2, ROUNDS - 1] {
        let mut record = Record::fitting_in(generator, &plan, rounds, 4);
        for _ in 0..3 {
            let draw = CampaignDraw {
                plan: stored.clone(),
                number: record.free_number(generator, &plan),
                record,
                counts: Buffer::random(generator, 2),
            };
            record = calls.compare(&draw)?.after.record;
        }
        damage(generator, &plan, &mut record);
        calls.compare(&CampaignDraw {
            plan: stored.clone(),
            number: generator.below(u64::from(denominator)) as u32,
            record,
            counts: Buffer::random(generator, 2),
        })?;
    }
    Ok(())
}

/// Draw 0 is accepted a thousand times, each time a round, and 1 gives 8; then 0 gives 13.
fn over_one_number(calls: &mut Calls) -> Result<(), Difference> {
    let generator = &mut Generator::new(0);
    let plan = plan_of(&GivenTable::by_rows(1, &[[5, 0]]));
    let stored = Buffer::holding(generator, &encode(&plan));
    let start = Start {
        plan: stored.clone(),
        record: Record::random(generator, 1, 2),
    };
    let mut record = calls.compare_stated(&start, 0)?.record;
    for round in 1..=ROUNDS + 1 {
        for (number, stated) in [(1, 8), (0, if round <= ROUNDS { 0 } else { 13 })] {
            let draw = CampaignDraw {
                plan: stored.clone(),
                number,
                record,
                counts: Buffer::random(generator, 2),
            };
            record = calls.compare_stated(&draw, stated)?.record;
        }
        let rounds = round.min(ROUNDS);
        let stated = record.with(&campaign::Record {
            taken: 0,
            rounds,
            bits: vec![0],
            tally: vec![5 * u64::from(rounds), 0],
        });
        require(record == stated, || {
            format!("both leave: {record:?}\nthe papers: {stated:?}\n")
        })?;
    }
    Ok(())
}

/// Records of which each breaks one condition, in the first and the last rounds and after
/// them: a draw of each number gives 9, taken or not.
fn unfit_records(calls: &mut Calls) -> Result<(), Difference> {
    let generator = &mut Generator::new(0);
    let plan = plan_of(&GivenTable::by_rows(10, &[[3, 4], [5, 6]]));
    for rounds in [0, 1, ROUNDS - 2, ROUNDS - 1, ROUNDS] {
        for share in [0, 2, 4] {
            let fitting = Record::fitting_in(generator, &plan, rounds, share);
            let after_a_round = if rounds > 0 { UNFIT_AFTER_A_ROUND } else { &[] };
            for (name, change) in UNFIT.iter().chain(after_a_round) {
                let mut record = fitting.clone();
                change(&plan, &mut record);
                for number in 0..10 {
                    let draw = CampaignDraw {
                        plan: Buffer::holding(generator, &encode(&plan)),
                        number,
                        record: record.clone(),
                        counts: Buffer::random(generator, 4),
                    };
                    let compared = calls.compare_stated(&draw, 9);
                    compared.map_err(|difference| difference.in_case(name, None))?;
                }
            }
        }
    }
    Ok(())
}

/// A thousand rounds are done, and another refusal applies: 5, 6, 7, 8 and 9 go before. A
/// number that is taken is a record that does not fit, so that 10 cannot apply.
fn over_and_refused_besides(calls: &mut Calls) -> Result<(), Difference> {
    let generator = &mut Generator::new(0);
    let good = encode(&plan_of(&GivenTable::by_rows(10, &[[3, 4], [5, 6]])));
    let cut = &good[..good.len() - 1];
    let mut heavy = good.clone();
    heavy[16] += 1;
    let over = |taken: u32, bits: &[u8], tally: &[u64]| campaign::Record {
        taken,
        rounds: ROUNDS,
        bits: bits.to_vec(),
        tally: tally.to_vec(),
    };
    let done = over(0, &[0, 0], &[3000, 4000, 5000, 6000]);
    let taken = over(1, &[1, 0], &[3000, 4000, 5000, 6001]);
    let short_bits = over(0, &[0], &[3000, 4000, 5000, 6000]);
    let short_tally = over(0, &[0, 0], &[3000, 4000, 5000]);
    let uncounted = over(1, &[0, 0], &[3000, 4000, 5000, 6000]);
    for (stated, plan, record, number, room) in [
        (5, cut, &done, 0, 4),
        (6, &heavy, &done, 0, 4),
        (7, &good, &short_bits, 0, 4),
        (7, &good, &short_tally, 0, 4),
        (7, &good, &done, 0, 3),
        (8, &good, &done, 10, 4),
        (9, &good, &uncounted, 0, 4),
        (9, &good, &taken, 1, 4),
        (9, &good, &taken, 0, 4),
        (13, &good, &done, 0, 4),
        (13, &good, &done, 9, 4),
    ] {
        let draw = CampaignDraw {
            plan: Buffer::holding(generator, plan),
            number,
            record: Record::holding(generator, record),
            counts: Buffer::random(generator, room),
        };
        calls.compare_stated(&draw, stated)?;
    }
    Ok(())
}
