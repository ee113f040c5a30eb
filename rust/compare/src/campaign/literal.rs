//! The tables of literal cases that speak of campaigns.

use super::{CampaignDraw, Start};
use crate::draw::array;
use compare::buffer::Buffer;
use compare::cases::{over_rows, require, Calls, Difference};
use compare::records::Record;
use tables::literal::campaign;
use tables::literal::runs::{self, Asked, Run};
use tables::Generator;

pub fn starts(calls: &mut Calls) -> Result<(), Difference> {
    let generator = &mut Generator::new(0);
    over_rows(&campaign::starts(), |row| {
        let call = Start {
            plan: Buffer::holding(generator, &row.plan),
            record: Record::holding(generator, &row.given),
        };
        let left = Start {
            record: call.record.with(&row.left),
            ..call.clone()
        };
        calls.compare_left(&call, row.number, &left)
    })
}

pub fn draws(calls: &mut Calls) -> Result<(), Difference> {
    let generator = &mut Generator::new(0);
    over_rows(&campaign::draws(), |row| {
        let call = CampaignDraw {
            plan: Buffer::holding(generator, &row.plan),
            number: row.asked,
            record: Record::holding(generator, &row.given),
            counts: Buffer::holding(generator, &row.buffer),
        };
        let left = CampaignDraw {
            record: call.record.with(&row.left),
            counts: call.counts.with(&row.result),
            ..call.clone()
        };
        calls.compare_left(&call, row.number, &left)
    })
}

pub fn runs(calls: &mut Calls) -> Result<(), Difference> {
    over_rows(&runs::runs(), |run| compare_run(calls, run))
}

/// A run with its answers and those due next, the record at the end, the rounds completed,
/// how many draws of the round that goes on were accepted, what they drew and what the
/// unused numbers hold, and what all draws drew.
fn compare_run(calls: &mut Calls, run: &Run) -> Result<(), Difference> {
    let first = first_record(calls, run)?;
    let mut record = first.clone();
    let (mut in_round, mut all) = (Vec::new(), Vec::new());
    for (asked, &answer) in run.asked.iter().zip(&run.said.answers) {
        let left = drawn(calls, run, &record, asked, answer)?;
        if answer == 0 {
            in_round.push(left.counts.lent().to_vec());
            all.push(left.counts.lent().to_vec());
        }
        if left.record.rounds != record.rounds {
            in_round.clear();
        }
        record = left.record;
    }
    for (asked, answer) in runs::NEXT.iter().zip(run.said.next) {
        drawn(calls, run, &record, asked, answer)?;
    }
    let unused = run.sums(&unused_arrays(calls, run)?);
    let sums = [run.sums(&in_round), unused, run.sums(&all)];
    let rounds = record.rounds - first.rounds;
    let found = (&record, rounds, in_round.len() as u32, sums);
    let (said, last) = (&run.said, first.with(&run.said.last));
    let sums = [&said.drawn, &said.unused, &said.all].map(Vec::clone);
    let stated = (&last, said.rounds, said.accepted, sums);
    require(found == stated, || {
        format!("both end with {found:?}\nthe papers: {stated:?}\n")
    })
}

/// The record that a run goes on with, or that its start leaves.
fn first_record(calls: &mut Calls, run: &Run) -> Result<Record, Difference> {
    let generator = &mut Generator::new(0);
    if let Some(record) = &run.from {
        return Ok(Record::holding(generator, record));
    }
    let start = Start {
        plan: Buffer::holding(generator, &run.plan),
        record: Record::holding(generator, &campaign::any()),
    };
    Ok(calls.compare_stated(&start, 0)?.record)
}

/// A draw of a run, with this answer.
fn drawn(
    calls: &mut Calls,
    run: &Run,
    record: &Record,
    asked: &Asked,
    answer: u32,
) -> Result<CampaignDraw, Difference> {
    let generator = &mut Generator::new(0);
    let draw = CampaignDraw {
        plan: Buffer::holding(generator, &run.plan),
        number: asked.number,
        record: record.clone(),
        counts: Buffer::holding(generator, asked.buffer),
    };
    calls.compare_stated(&draw, answer)
}

/// The arrays of the numbers that are said to be unused.
fn unused_arrays(calls: &mut Calls, run: &Run) -> Result<Vec<Vec<u16>>, Difference> {
    let cells = run.rows * run.columns;
    (0..)
        .zip(&run.said.used)
        .filter(|(_, &used)| !used)
        .map(|(number, _)| array(calls, &run.plan, number, cells))
        .collect()
}
