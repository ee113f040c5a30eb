use benchmark::inputs::{stored_plan, COLUMNS, DENOMINATOR, ROWS};
use benchmark::timing::{Times, PASSES};
use lufodimi_sys::LUFODIMI_LONGEST_PLAN;
use tables::GivenTable;

/// Plans all tables with the library and with the straightforward program by turns,
/// and prints both times. The plans must be the same.
pub fn measure(tables: &[GivenTable]) {
    let mut buffer = vec![0; LUFODIMI_LONGEST_PLAN];
    let mut library_times = Times::of(tables.len());
    let mut straightforward_times = Times::of(tables.len());
    for _ in 0..PASSES {
        for (item, table) in tables.iter().enumerate() {
            let cells = &table.cells;
            let length = library_times.measure(item, || {
                lufodimi_sys::plan(ROWS, COLUMNS, DENOMINATOR, cells, &mut buffer)
            });
            let arrays = straightforward_times.measure(item, || {
                straightforward::plan(ROWS, COLUMNS, DENOMINATOR, cells)
            });
            let same = buffer[..length as usize] == stored_plan(table, arrays);
            assert!(same, "the plans differ: {table:?}");
        }
    }
    let (library, straightforward) = (library_times.mean(), straightforward_times.mean());
    println!("plan, library: {library:.1} microseconds a plan");
    println!("plan, straightforward program: {straightforward:.1} microseconds a plan");
    println!("plan, ratio: {:.3}", library / straightforward);
}
