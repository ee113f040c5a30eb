//! Literal cases of every call: what it is given, what it returns and what it leaves,
//! typed out by hand from the papers, 01 and 02. The proved definitions are held to the
//! same tables, with the same rows in the same order: `specs/Examples.antt` of the crates,
//! and for runs `specs/Campaigns.antt` of `demands`. The tables there of what is no call
//! are not here: those of `bits`, `division`, `multiples`, `records` and `view`, and some of
//! `opening` and `variance_text`.

pub mod campaign;
pub mod check;
pub mod corrections;
pub mod draw;
pub mod examples;
pub mod open;
pub mod parts;
pub mod plan;
pub mod pool;
pub mod reason;
pub mod round;
pub mod runs;
pub mod stored;
pub mod text;
pub mod variances;
pub mod walk;

use crate::GivenTable;

/// A call: what is given and the buffer that is lent; the number that it returns, and
/// the buffer as it leaves it.
#[derive(Debug)]
pub struct Call<Given, Item> {
    pub given: Given,
    pub buffer: Vec<Item>,
    pub number: u32,
    pub result: Vec<Item>,
}

impl<Given, Item: Copy> Call<Given, Item> {
    fn returns(given: Given, buffer: &[Item], number: u32, result: &[Item]) -> Call<Given, Item> {
        Call {
            given,
            buffer: buffer.to_vec(),
            number,
            result: result.to_vec(),
        }
    }

    /// A call that is refused by this number and leaves the buffer as it was.
    fn refuses(given: Given, buffer: &[Item], number: u32) -> Call<Given, Item> {
        Call::returns(given, buffer, number, buffer)
    }
}

/// Buffers that are lent for an array, by the number of their counts.
const SIX: &[u16] = &[8; 6];
const FIVE: &[u16] = &[8; 5];
const FOUR: &[u16] = &[8; 4];
const THREE: &[u16] = &[8; 3];
const ONE: &[u16] = &[8];

/// A table as it is handed over.
fn table<Cell: Clone>(
    rows: u32,
    columns: u32,
    denominator: u32,
    cells: &[Cell],
) -> GivenTable<Cell> {
    GivenTable {
        rows,
        columns,
        denominator,
        cells: cells.to_vec(),
    }
}

/// The rows with their numbers, counted from 1, by which a failure names them.
pub fn numbered<Row>(rows: &[Row]) -> impl Iterator<Item = (usize, &Row)> {
    (1..).zip(rows)
}
