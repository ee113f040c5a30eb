use benchmark::inputs::DENOMINATOR;
use benchmark::timing::{Times, PASSES};
use lufodimi_sys::LUFODIMI_LAST;
use tables::{evenly_spread, Generator, GivenTable};

const SEED: u64 = 15;
const ROWS: u32 = 4;
const COLUMNS: u32 = 4;

/// The counts of an array.
type Counts = [u16; 16];

/// Walks through all controlled roundings of tables of four by four without a whole cell,
/// and prints the time of a walk and of an array. Then goes on once from every array of some
/// tables, and prints the longest time of a call.
pub fn measure() {
    measure_walks();
    measure_calls();
}

fn measure_walks() {
    let tables = hundred_tables();
    let mut times = Times::of(tables.len());
    let mut arrays = 0;
    for _ in 0..PASSES {
        arrays = 0;
        for (item, table) in tables.iter().enumerate() {
            arrays += times.measure(item, || walk(table, |_| ()));
        }
    }
    let arrays = arrays as f64 / tables.len() as f64;
    println!(
        "walk, {arrays:.1} arrays: {:.1} microseconds a walk",
        times.mean()
    );
    println!("walk: {:.2} microseconds an array", times.mean() / arrays);
}

fn measure_calls() {
    for (name, table) in worst_tables() {
        let mut arrays = Vec::new();
        walk(&table, |array| arrays.push(*array));
        let mut times = Times::of(arrays.len());
        let mut counts = Counts::default();
        for _ in 0..PASSES {
            for (item, array) in arrays.iter().enumerate() {
                times.measure(item, || next(&table, array, &mut counts));
            }
        }
        let (place, time) = times.longest();
        println!(
            "walk next, {name}: at most {time:.1} microseconds, from array {} of {}",
            place + 1,
            arrays.len()
        );
    }
}

/// Tables whose cells are spread evenly from 1 to the denominator minus 1, the same in every
/// run.
fn hundred_tables() -> Vec<GivenTable> {
    let mut generator = Generator::new(SEED);
    let table = |_| {
        let mut table = evenly_spread(&mut generator, ROWS, COLUMNS, DENOMINATOR - 1);
        table.denominator = DENOMINATOR;
        table.cells.iter_mut().for_each(|cell| *cell += 1);
        table
    };
    (0..100).map(table).collect()
}

/// Tables in which many arrays that are no controlled roundings lie after one that is.
fn worst_tables() -> [(&'static str, GivenTable); 5] {
    let uniform = |cell| GivenTable::uniform(ROWS, COLUMNS, DENOMINATOR, cell);
    let mut corner = uniform(0);
    corner.cells[15] = 1;
    [
        ("all cells whole", uniform(0)),
        ("the last cell not whole", corner),
        ("least cells", uniform(1)),
        ("largest cells", uniform(DENOMINATOR - 1)),
        ("halves", GivenTable::uniform(ROWS, COLUMNS, 2, 1)),
    ]
}

/// Hands all arrays on, from the first to the last, and gives their number.
fn walk(table: &GivenTable, mut visit: impl FnMut(&Counts)) -> usize {
    let (mut array, mut counts) = (Counts::default(), Counts::default());
    let first =
        lufodimi_sys::walk_first(ROWS, COLUMNS, table.denominator, &table.cells, &mut array);
    assert_eq!(first, 0, "a walk is refused");
    for number in 1.. {
        visit(&array);
        if !next(table, &array, &mut counts) {
            return number;
        }
        std::mem::swap(&mut array, &mut counts);
    }
    unreachable!("a walk ends");
}

/// Writes the array after this one. Returns whether there is one.
fn next(table: &GivenTable, array: &Counts, counts: &mut Counts) -> bool {
    let answer = lufodimi_sys::walk_next(
        ROWS,
        COLUMNS,
        table.denominator,
        &table.cells,
        array,
        counts,
    );
    assert!([0, LUFODIMI_LAST].contains(&answer), "a walk is refused");
    answer == 0
}
