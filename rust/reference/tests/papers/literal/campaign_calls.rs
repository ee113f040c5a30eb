//! Starts, campaign draws and small runs.

use super::assert_rows;
use reference::number_of;
use tables::literal::campaign::{self, Record};
use tables::literal::runs::{self, Asked, Run, Said};

/// The number that a start returns, and the record as it leaves it.
fn started(plan: &[u8], given: &Record) -> (u32, Record) {
    let mut record = given.clone();
    let answer = reference::start(
        plan,
        &mut record.taken,
        &mut record.rounds,
        &mut record.bits,
        &mut record.tally,
    );
    (number_of(answer), record)
}

/// The same for a campaign draw, with the buffer as it leaves it.
fn drawn(plan: &[u8], given: &Record, asked: u32, buffer: &[u16]) -> (u32, Record, Vec<u16>) {
    let (mut record, mut counts) = (given.clone(), buffer.to_vec());
    let answer = reference::campaign_draw(
        plan,
        asked,
        &mut record.taken,
        &mut record.rounds,
        &mut record.bits,
        &mut record.tally,
        &mut counts,
    );
    (number_of(answer), record, counts)
}

#[test]
fn starts() {
    assert_rows(&campaign::starts(), |row| {
        let found = started(&row.plan, &row.given);
        (found, (row.number, row.left.clone()))
    });
}

#[test]
fn campaign_draws() {
    assert_rows(&campaign::draws(), |row| {
        let found = drawn(&row.plan, &row.given, row.asked, &row.buffer);
        (found, (row.number, row.left.clone(), row.result.clone()))
    });
}

/// The arrays that belong to the numbers that are not used.
fn unused_arrays(plan: &[u8], used: &[bool]) -> Vec<Vec<u16>> {
    let array = |number: usize| {
        let mut counts = vec![8; 5];
        reference::draw(plan, number as u32, &mut counts).expect("accepted");
        counts
    };
    let numbers = 0..used.len();
    numbers.filter(|&number| !used[number]).map(array).collect()
}

/// What is found of a run by its calls.
fn found(run: &Run) -> Said {
    let mut record = match &run.from {
        Some(record) => record.clone(),
        None => started(&run.plan, &campaign::any()).1,
    };
    let mut answers = Vec::new();
    let mut rounds = 0;
    let mut used = vec![false; run.said.used.len()];
    let (mut arrays, mut all) = (Vec::new(), Vec::new());
    for Asked { number, buffer } in &run.asked {
        let (answer, left, counts) = drawn(&run.plan, &record, *number, buffer);
        if answer == 0 {
            used[*number as usize] = true;
            arrays.push(counts.clone());
            all.push(counts);
        }
        if !used.contains(&false) {
            rounds += 1;
            used.fill(false);
            arrays.clear();
        }
        answers.push(answer);
        record = left;
    }
    Said {
        answers,
        rounds,
        accepted: arrays.len() as u32,
        drawn: run.sums(&arrays),
        all: run.sums(&all),
        unused: run.sums(&unused_arrays(&run.plan, &used)),
        used,
        next: runs::NEXT.map(|asked| drawn(&run.plan, &record, asked.number, asked.buffer).0),
        last: record,
    }
}

#[test]
fn small_runs() {
    assert_rows(&runs::runs(), |run| (found(run), run.said.clone()));
}
