use benchmark::inputs::{COLUMNS, DENOMINATOR, ROWS};
use benchmark::timing::{Times, PASSES};
use tables::GivenTable;

/// Asks for the reason of the last array of every table's plan, which takes all rounds,
/// and prints the time of a call.
pub fn measure(tables: &[GivenTable], plans: &[Vec<u8>]) {
    let mut times = Times::of(tables.len());
    for _ in 0..PASSES {
        for (item, (table, plan)) in tables.iter().zip(plans).enumerate() {
            let mut sizes = [0; 4];
            lufodimi_sys::sizes(plan, &mut sizes);
            let [_, _, last, _] = sizes;
            let mut reply = [0; 4];
            let answer = times.measure(item, || {
                lufodimi_sys::reason(ROWS, COLUMNS, DENOMINATOR, &table.cells, last, &mut reply)
            });
            assert_eq!((answer, reply), (0, [1, 1, 1, 0]), "not all are whole");
        }
    }
    println!("reason: {:.1} microseconds a call", times.mean());
}
