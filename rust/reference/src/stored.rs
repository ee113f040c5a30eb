//! Stored form 1, opening, and the plain draw.

use crate::rounding::write_counts;
use crate::{is_controlled_rounding, Array, Plan, Refusal, Table};

/// The bytes of head and of one entry of the contents.
pub const HEAD: usize = 8;
const CONTENTS_ENTRY: usize = 8;

/// The length of a stored plan with this many arrays of this many cells.
pub fn stored_length(arrays: usize, cells: usize) -> usize {
    table_offset(arrays) + 4 * cells + 2 * arrays * cells
}

/// The plan in form 1. Its numbers need only fit their fields.
pub fn encode(plan: &Plan) -> Vec<u8> {
    let table = &plan.table;
    let mut bytes = Vec::new();
    put(&mut bytes, 2, 1);
    put(&mut bytes, 1, table.rows as u64);
    put(&mut bytes, 1, table.columns as u64);
    put(&mut bytes, 2, plan.arrays.len() as u64);
    put(&mut bytes, 2, 0);
    let mut offset = table_offset(plan.arrays.len());
    put(&mut bytes, 4, table.denominator);
    put(&mut bytes, 4, offset as u64);
    offset += 4 * table.cells.len();
    for array in &plan.arrays {
        put(&mut bytes, 4, array.weight);
        put(&mut bytes, 4, offset as u64);
        offset += 2 * array.counts.len();
    }
    for &cell in &table.cells {
        put(&mut bytes, 4, cell);
    }
    for &count in plan.arrays.iter().flat_map(|array| &array.counts) {
        put(&mut bytes, 2, count);
    }
    bytes
}

/// The opening call: the stored plan, read out of its bytes.
pub fn open(bytes: &[u8]) -> Result<Plan, Refusal> {
    let plan = decode(bytes).ok_or(Refusal::Layout)?;
    if !conditions_hold(&plan) {
        return Err(Refusal::Content);
    }
    Ok(plan)
}

/// The draw call: writes the array that belongs to the draw number.
pub fn draw(bytes: &[u8], number: u32, counts: &mut [u16]) -> Result<(), Refusal> {
    let plan = open(bytes)?;
    if counts.len() < plan.table.size() {
        return Err(Refusal::ShortBuffer);
    }
    if u64::from(number) >= plan.table.denominator {
        return Err(Refusal::DrawNumber);
    }
    write_counts(&plan.array_of(u64::from(number)).counts, counts);
    Ok(())
}

/// The offset of the table's body, which follows the contents.
fn table_offset(arrays: usize) -> usize {
    HEAD + CONTENTS_ENTRY * (arrays + 1)
}

/// Appends a number, low byte first.
fn put(bytes: &mut Vec<u8>, width: usize, value: u64) {
    assert!(
        value >> (8 * width) == 0,
        "{value} does not fit in {width} bytes"
    );
    bytes.extend_from_slice(&value.to_le_bytes()[..width]);
}

/// The number of so many bytes at this position.
fn number_at(bytes: &[u8], position: usize, width: usize) -> u64 {
    bytes[position..position + width]
        .iter()
        .rev()
        .fold(0, |value, &byte| value << 8 | u64::from(byte))
}

/// Rows, columns and the number of arrays, if there is a head and they are in bounds.
fn sizes_by_head(bytes: &[u8]) -> Option<[usize; 3]> {
    if bytes.len() < HEAD {
        return None;
    }
    let rows = number_at(bytes, 2, 1);
    let columns = number_at(bytes, 3, 1);
    let arrays = number_at(bytes, 4, 2);
    let bounds_hold = Table::ROWS.contains(&rows)
        && Table::COLUMNS.contains(&columns)
        && Table::ARRAYS.contains(&arrays);
    bounds_hold.then_some([rows as usize, columns as usize, arrays as usize])
}

/// The length of the stored plan that begins with these bytes, if its head is right.
pub fn length_by_head(bytes: &[u8]) -> Option<usize> {
    let [rows, columns, arrays] = sizes_by_head(bytes)?;
    let (form, zero) = (number_at(bytes, 0, 2), number_at(bytes, 6, 2));
    (form == 1 && zero == 0).then(|| stored_length(arrays, rows * columns))
}

/// The plan if layout, length and the bounds of the head hold. With rows, columns
/// and the number of arrays known, every number has its place, and the remaining
/// fields are right exactly if the plan is stored as these bytes.
fn decode(bytes: &[u8]) -> Option<Plan> {
    let [rows, columns, arrays] = sizes_by_head(bytes)?;
    if bytes.len() != stored_length(arrays, rows * columns) {
        return None;
    }
    let plan = read_plan(bytes, rows, columns, arrays);
    let bound_holds = Table::DENOMINATORS.contains(&plan.table.denominator);
    (bound_holds && encode(&plan) == bytes).then_some(plan)
}

/// The numbers of a stored plan of the right length, each read at its place.
fn read_plan(bytes: &[u8], rows: usize, columns: usize, arrays: usize) -> Plan {
    let cells = rows * columns;
    let contents = |entry: usize| number_at(bytes, HEAD + CONTENTS_ENTRY * entry, 4);
    let table_body = table_offset(arrays);
    let array_body = |array: usize| table_body + 4 * cells + 2 * cells * array;
    let count = |array: usize, cell: usize| number_at(bytes, array_body(array) + 2 * cell, 2);
    Plan {
        table: Table {
            rows,
            columns,
            denominator: contents(0),
            cells: (0..cells)
                .map(|cell| number_at(bytes, table_body + 4 * cell, 4))
                .collect(),
        },
        arrays: (0..arrays)
            .map(|array| Array {
                weight: contents(array + 1),
                counts: (0..cells).map(|cell| count(array, cell)).collect(),
            })
            .collect(),
    }
}

/// The conditions of opening that go beyond the layout.
fn conditions_hold(plan: &Plan) -> bool {
    let weights_sum: u64 = plan.arrays.iter().map(|array| array.weight).sum();
    plan.table.cells_within_bound()
        && plan.arrays.iter().all(|array| array.weight >= 1)
        && weights_sum == plan.table.denominator
        && plan.arrays.iter().all(|array| rounds(array, &plan.table))
        && (0..plan.table.size()).all(|cell| is_balanced(plan, cell))
}

/// Whether the array is a controlled rounding of the table: its cells, row totals and
/// column totals and its grand total are the table's, rounded down or up.
fn rounds(array: &Array, table: &Table) -> bool {
    is_controlled_rounding(
        table.rows,
        table.columns,
        table.denominator,
        &table.cells,
        &array.counts,
    )
}

/// Whether the counts of a cell times the weights add up to the table's cell.
fn is_balanced(plan: &Plan, cell: usize) -> bool {
    let planned: u64 = plan
        .arrays
        .iter()
        .map(|array| array.weight * array.counts[cell])
        .sum();
    planned == plan.table.cells[cell]
}
