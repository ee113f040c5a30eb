//! Walks that are turned back: every refusal alone and beside every other.

use super::{listed, Beginning, GoingOn, Known, LARGEST};
use compare::buffer::lengths_around;
use compare::cases::{Calls, Difference};
use compare::lent_tables::{turned_back, with_negative_cell};
use tables::{all_sizes, random_table, random_table_of, Generator, GivenTable};

/// Tables with all combinations of the refusals 1 to 4, of a size that is walked through and
/// of larger ones, with an array that is a controlled rounding, one that is none and one of
/// another length, and with buffers of all lengths.
pub fn every_pair(generator: &mut Generator, calls: &mut Calls) -> Result<(), Difference> {
    let small = random_table(generator, LARGEST);
    let walk = listed(&small);
    for table in turned_back(generator, &small) {
        let known = Known((table == small).then_some(&walk));
        both_calls(generator, calls, &table, &walk.arrays()[0], known)?;
    }
    let beyond = generator.between(u64::from(LARGEST) + 1, 12) as u32;
    let within = generator.between(1, 12) as u32;
    let mut size = [beyond, within];
    generator.shuffle(&mut size);
    let large = random_table_of(generator, size[0], size[1]);
    let counts: Vec<u16> = large
        .cells
        .iter()
        .map(|cell| (cell / large.denominator) as u16)
        .collect();
    for table in turned_back(generator, &large) {
        both_calls(generator, calls, &table, &counts, Known(None))?;
    }
    Ok(())
}

/// Both calls for a table, with the array, with one that is no rounding and with one of
/// another length, and with buffers of all lengths.
fn both_calls(
    generator: &mut Generator,
    calls: &mut Calls,
    table: &GivenTable,
    array: &[u16],
    known: Known,
) -> Result<(), Difference> {
    let mut other = array.to_vec();
    other[generator.place(array.len())] ^= 0x100;
    for room in lengths_around(generator, array.len()) {
        calls.compare(&Beginning::of(generator, table, room, known))?;
        for array in [array, &other, &array[1..]] {
            calls.compare(&GoingOn::of(generator, table, array, room, known))?;
        }
    }
    Ok(())
}

/// An accepted table of every size above four rows or four columns: 15, whatever the array
/// and the buffer are.
pub fn sizes_above_four(generator: &mut Generator, calls: &mut Calls) -> Result<(), Difference> {
    for (rows, columns) in all_sizes().filter(|&(rows, columns)| rows.max(columns) > LARGEST) {
        let table = random_table_of(generator, rows, columns);
        refused(generator, calls, &table, 15)?;
    }
    Ok(())
}

/// Both calls with arrays that are as long as the table has cells and that are not, and with
/// buffers of all lengths are refused so.
fn refused(
    generator: &mut Generator,
    calls: &mut Calls,
    table: &GivenTable,
    number: u32,
) -> Result<(), Difference> {
    let size = table.cells.len();
    for room in lengths_around(generator, size) {
        calls.compare_stated(&Beginning::of(generator, table, room, Known(None)), number)?;
        for array in [vec![0; size], vec![1; size], vec![]] {
            let next = GoingOn::of(generator, table, &array, room, Known(None));
            calls.compare_stated(&next, number)?;
        }
    }
    Ok(())
}

/// A cell below 0: 4.
pub fn negative_cells(generator: &mut Generator, calls: &mut Calls) -> Result<(), Difference> {
    let accepted = random_table(generator, LARGEST);
    let table = with_negative_cell(generator, &accepted);
    refused(generator, calls, &table, 4)
}

/// Rows and columns of which only the low 8, 16, 24 or 31 bits are from 1 to 4: 1.
pub fn wide_sizes(calls: &mut Calls) -> Result<(), Difference> {
    let generator = &mut Generator::new(0);
    for (rows, columns) in all_sizes().filter(|&(rows, columns)| rows.max(columns) <= LARGEST) {
        let table = random_table_of(generator, rows, columns);
        for more in [1 << 8, 1 << 16, 1 << 24, 1 << 31] {
            for (rows, columns) in [(rows + more, columns), (rows, columns + more)] {
                let wide = GivenTable {
                    rows,
                    columns,
                    ..table.clone()
                };
                refused(generator, calls, &wide, 1)?;
            }
        }
    }
    Ok(())
}

/// A controlled rounding, and as many counts after it that its length has the same low 8 or
/// 16 bits: 16.
pub fn long_arrays(calls: &mut Calls) -> Result<(), Difference> {
    let generator = &mut Generator::new(0);
    for (rows, columns) in [(1, 1), (1, 4), (4, 1), (3, 2), (4, 4)] {
        let table = GivenTable::uniform(rows, columns, 10, 3);
        for more in [1 << 8, 1 << 16] {
            let mut array = listed(&table).arrays()[0].clone();
            let room = array.len();
            array.resize(room + more, 0);
            let next = GoingOn::of(generator, &table, &array, room, Known(None));
            calls.compare_left(&next, 16, &next)?;
        }
    }
    Ok(())
}
