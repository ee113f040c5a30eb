//! Small runs: a start on a record that held anything, or a record that is gone on with, then
//! draws, and what is said of them (01, "Examples" and "What demand 3 speaks of"; 02, F-5).

use super::campaign::{late, record, single, Record};
use super::open::GRAND_VARIES;
use super::stored::SQUARE;
use super::FIVE;

/// A draw of a run: its number, and the buffer that it lends.
#[derive(Debug)]
pub struct Asked {
    pub number: u32,
    pub buffer: &'static [u16],
}

const fn ask(number: u32) -> Asked {
    Asked {
        number,
        buffer: FIVE,
    }
}

const fn ask_short(number: u32) -> Asked {
    Asked {
        number,
        buffer: &[],
    }
}

/// What is said of a run.
#[derive(Clone, Debug, PartialEq, Eq)]
pub struct Said {
    /// The answers to its draws.
    pub answers: Vec<u32>,
    /// How many rounds it completed.
    pub rounds: u16,
    /// Which numbers are used in the round that goes on.
    pub used: Vec<bool>,
    /// How many draws of this round were accepted.
    pub accepted: u32,
    /// What this round has drawn, and what the unused numbers hold, for each cell, row and
    /// column and the grand total.
    pub drawn: Vec<u32>,
    pub unused: Vec<u32>,
    /// What all its rounds have drawn, for the same.
    pub all: Vec<u32>,
    /// The record at the end.
    pub last: Record,
    /// The answers due next to each of `NEXT`.
    pub next: [u32; 4],
}

/// Draws that may come next: of 0, 1 and 2, and of 1 with no buffer.
pub const NEXT: [Asked; 4] = [ask(0), ask(1), ask(2), ask_short(1)];

/// A run, which goes on with a record, or else starts on `campaign::any`.
#[derive(Debug)]
pub struct Run {
    pub plan: Vec<u8>,
    pub from: Option<Record>,
    pub rows: usize,
    pub columns: usize,
    pub asked: Vec<Asked>,
    pub said: Said,
}

impl Run {
    /// The sum of arrays, for each cell, row and column and the grand total; what a buffer
    /// has beyond its array does not count.
    pub fn sums(&self, arrays: &[Vec<u16>]) -> Vec<u32> {
        let sum = |cell: usize| arrays.iter().map(|array| u32::from(array[cell])).sum();
        let cells: Vec<u32> = (0..self.rows * self.columns).map(sum).collect();
        let rows = cells.chunks(self.columns).map(|row| row.iter().sum());
        let in_column = |column| cells.iter().skip(column).step_by(self.columns);
        let columns = (0..self.columns).map(|column| in_column(column).sum());
        let totals = rows.chain(columns).chain([cells.iter().sum()]);
        cells.iter().copied().chain(totals).collect()
    }
}

pub fn runs() -> Vec<Run> {
    vec![
        Run {
            plan: SQUARE.to_vec(),
            from: None,
            rows: 2,
            columns: 2,
            asked: vec![],
            said: Said {
                answers: vec![],
                rounds: 0,
                used: vec![false, false],
                accepted: 0,
                drawn: vec![0, 0, 0, 0, 0, 0, 0, 0, 0],
                unused: vec![1, 1, 1, 1, 2, 2, 2, 2, 4],
                all: vec![0, 0, 0, 0, 0, 0, 0, 0, 0],
                last: record(0, 0, &[0, 6], &[0, 0, 0, 0, 5]),
                next: [0, 0, 8, 7],
            },
        },
        Run {
            plan: SQUARE.to_vec(),
            from: None,
            rows: 2,
            columns: 2,
            asked: vec![ask_short(1), ask(0), ask(0), ask(2)],
            said: Said {
                answers: vec![7, 0, 10, 8],
                rounds: 0,
                used: vec![true, false],
                accepted: 1,
                drawn: vec![0, 1, 1, 0, 1, 1, 1, 1, 2],
                unused: vec![1, 0, 0, 1, 1, 1, 1, 1, 2],
                all: vec![0, 1, 1, 0, 1, 1, 1, 1, 2],
                last: record(1, 0, &[1, 6], &[0, 1, 1, 0, 5]),
                next: [10, 0, 8, 7],
            },
        },
        // a round, and two with a draw of the third
        Run {
            plan: SQUARE.to_vec(),
            from: None,
            rows: 2,
            columns: 2,
            asked: vec![ask(1), ask(0)],
            said: Said {
                answers: vec![0, 0],
                rounds: 1,
                used: vec![false, false],
                accepted: 0,
                drawn: vec![0, 0, 0, 0, 0, 0, 0, 0, 0],
                unused: vec![1, 1, 1, 1, 2, 2, 2, 2, 4],
                all: vec![1, 1, 1, 1, 2, 2, 2, 2, 4],
                last: record(0, 1, &[0, 6], &[1, 1, 1, 1, 5]),
                next: [0, 0, 8, 7],
            },
        },
        Run {
            plan: SQUARE.to_vec(),
            from: None,
            rows: 2,
            columns: 2,
            asked: vec![ask(1), ask(0), ask(0), ask(2), ask(0), ask(1), ask(1)],
            said: Said {
                answers: vec![0, 0, 0, 8, 10, 0, 0],
                rounds: 2,
                used: vec![false, true],
                accepted: 1,
                drawn: vec![1, 0, 0, 1, 1, 1, 1, 1, 2],
                unused: vec![0, 1, 1, 0, 1, 1, 1, 1, 2],
                all: vec![3, 2, 2, 3, 5, 5, 5, 5, 10],
                last: record(1, 2, &[2, 6], &[3, 2, 2, 3, 5]),
                next: [0, 10, 8, 7],
            },
        },
        Run {
            plan: GRAND_VARIES.to_vec(),
            from: None,
            rows: 2,
            columns: 2,
            asked: vec![ask(1)],
            said: Said {
                answers: vec![0],
                rounds: 0,
                used: vec![false, true],
                accepted: 1,
                drawn: vec![0, 1, 1, 0, 1, 1, 1, 1, 2],
                unused: vec![1, 0, 0, 0, 1, 0, 1, 0, 1],
                all: vec![0, 1, 1, 0, 1, 1, 1, 1, 2],
                last: record(1, 0, &[2, 6], &[0, 1, 1, 0, 5]),
                next: [0, 10, 8, 7],
            },
        },
        // over D 1 each draw of 0 is a round
        Run {
            plan: single(1),
            from: None,
            rows: 1,
            columns: 1,
            asked: vec![ask(0), ask(0), ask(1)],
            said: Said {
                answers: vec![0, 0, 8],
                rounds: 2,
                used: vec![false],
                accepted: 0,
                drawn: vec![0, 0, 0, 0],
                unused: vec![1, 1, 1, 1],
                all: vec![2, 2, 2, 2],
                last: record(0, 2, &[0, 6], &[2, 2, 3, 4, 5]),
                next: [0, 8, 8, 7],
            },
        },
        // the thousandth round, and after it
        Run {
            plan: SQUARE.to_vec(),
            from: Some(late()),
            rows: 2,
            columns: 2,
            asked: vec![ask(1), ask(0), ask(0), ask(2), ask_short(0)],
            said: Said {
                answers: vec![0, 0, 13, 8, 7],
                rounds: 1,
                used: vec![false, false],
                accepted: 0,
                drawn: vec![0, 0, 0, 0, 0, 0, 0, 0, 0],
                unused: vec![1, 1, 1, 1, 2, 2, 2, 2, 4],
                all: vec![1, 1, 1, 1, 2, 2, 2, 2, 4],
                last: record(0, 1000, &[0], &[1000, 1000, 1000, 1000]),
                next: [13, 13, 8, 7],
            },
        },
    ]
}
