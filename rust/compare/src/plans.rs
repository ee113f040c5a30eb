//! Plans to be opened and drawn from: planned ones, and foreign ones made of them.

use reference::{entries, Array, Plan, Table};
use tables::papers::{Example, WeightedArrays};
use tables::{random_table, Generator, GivenTable};

/// A plan as the papers state it.
pub fn stated_plan(example: Example) -> Plan {
    plan_with(&example.table, example.arrays)
}

/// The plan of an accepted table, from the straightforward program.
pub fn plan_of(given: &GivenTable) -> Plan {
    let arrays = straightforward::plan(given.rows, given.columns, given.denominator, &given.cells);
    plan_with(given, arrays)
}

fn plan_with(given: &GivenTable, arrays: WeightedArrays) -> Plan {
    let table = Table::accept(given.rows, given.columns, given.denominator, &given.cells);
    Plan::new(table.expect("the table is accepted"), arrays)
}

/// The plan of a random table with at most so many rows and columns.
pub fn random_plan(generator: &mut Generator, largest: u32) -> Plan {
    plan_of(&random_table(generator, largest))
}

/// The same with a denominator of at most `most`.
pub fn random_plan_up_to(generator: &mut Generator, largest: u32, most: u32) -> Plan {
    loop {
        let table = random_table(generator, largest);
        if table.denominator <= most {
            return plan_of(&table);
        }
    }
}

/// A plan of a random table, sometimes as somebody else would have stored it.
pub fn random_opening_plan(generator: &mut Generator, largest: u32) -> Plan {
    let mut plan = random_plan(generator, largest);
    for _ in 0..generator.below(4) {
        split(generator, &mut plan);
    }
    if generator.once_in(2) {
        generator.shuffle(&mut plan.arrays);
    }
    plan
}

/// Changes a plan as somebody else may have made it; it need not open.
pub fn make_foreign(generator: &mut Generator, plan: &mut Plan) {
    match generator.below(6) {
        0 => generator.shuffle(&mut plan.arrays),
        1 => merge(plan),
        2 => exchange(generator, plan),
        3 => move_units(generator, plan),
        _ => split(generator, plan),
    }
}

/// Splits an array into two equal ones that share its weight, unless it is 1.
fn split(generator: &mut Generator, plan: &mut Plan) {
    let chosen = generator.place(plan.arrays.len());
    let weight = plan.arrays[chosen].weight;
    if weight > 1 {
        let part = generator.between(1, weight - 1);
        split_off(plan, chosen, part);
    }
}

/// Takes a part of an array's weight for an equal array at the end.
pub fn split_off(plan: &mut Plan, chosen: usize, part: u64) {
    let mut copy = plan.arrays[chosen].clone();
    plan.arrays[chosen].weight -= part;
    copy.weight = part;
    plan.arrays.push(copy);
}

/// Splits every array into equal ones of weight 1.
pub fn split_fully(plan: &mut Plan) {
    plan.arrays = plan
        .arrays
        .iter()
        .flat_map(|array| {
            let one = Array {
                weight: 1,
                counts: array.counts.clone(),
            };
            vec![one; array.weight as usize]
        })
        .collect();
}

/// Makes one array of all that equal the first.
fn merge(plan: &mut Plan) {
    let counts = plan.arrays[0].counts.clone();
    let is_equal = |array: &Array| array.counts == counts;
    let weight = plan
        .arrays
        .iter()
        .filter(|array| is_equal(array))
        .map(|array| array.weight)
        .sum();
    plan.arrays.retain(|array| !is_equal(array));
    plan.arrays.push(Array { weight, counts });
}

/// Chooses two arrays and splits the heavier, so that both have the same weight.
fn two_of_equal_weight(generator: &mut Generator, plan: &mut Plan) -> (usize, usize) {
    let one = generator.place(plan.arrays.len());
    let other = generator.place(plan.arrays.len());
    even_out(plan, one, other);
    (one, other)
}

/// Splits the heavier of two arrays, so that both have the same weight.
fn even_out(plan: &mut Plan, one: usize, other: usize) {
    let (weight, other_weight) = (plan.arrays[one].weight, plan.arrays[other].weight);
    let heavier = if weight < other_weight { other } else { one };
    let rest = weight.abs_diff(other_weight);
    if rest > 0 {
        split_off(plan, heavier, rest);
    }
}

/// Lets two arrays of equal weight exchange some counts. Every cell stays balanced
/// and within its bounds, but totals may leave theirs.
fn exchange(generator: &mut Generator, plan: &mut Plan) {
    let (one, other) = two_of_equal_weight(generator, plan);
    for _ in 0..generator.between(1, 4) {
        let cell = generator.place(plan.table.size());
        let count = plan.arrays[one].counts[cell];
        plan.arrays[one].counts[cell] = plan.arrays[other].counts[cell];
        plan.arrays[other].counts[cell] = count;
    }
}

/// Lets two arrays of equal weight exchange the count of a cell that is one larger in
/// the second, and so are its row total and its column total. Every cell stays balanced,
/// and cells, rows and columns stay within their bounds; only grand totals may leave
/// theirs. Without two such arrays nothing happens.
pub fn swing(generator: &mut Generator, plan: &mut Plan) {
    let found = swings(plan);
    if found.is_empty() {
        return;
    }
    let (one, other, cell) = generator.pick(&found);
    even_out(plan, one, other);
    plan.arrays[one].counts[cell] += 1;
    plan.arrays[other].counts[cell] -= 1;
}

/// All choices of two arrays and a cell that `swing` asks for.
fn swings(plan: &Plan) -> Vec<(usize, usize, usize)> {
    let (rows, columns) = (plan.table.rows, plan.table.columns);
    let entries_of = |array: &Array| entries(rows, columns, &array.counts);
    let of_arrays: Vec<Vec<u64>> = plan.arrays.iter().map(entries_of).collect();
    let is_larger = |one: usize, other: usize, cell: usize| {
        let row = rows * columns + cell / columns;
        let column = rows * columns + rows + cell % columns;
        [cell, row, column]
            .iter()
            .all(|&entry| of_arrays[one][entry] + 1 == of_arrays[other][entry])
    };
    let arrays = 0..of_arrays.len();
    arrays
        .clone()
        .flat_map(|one| arrays.clone().map(move |other| (one, other)))
        .flat_map(|(one, other)| (0..rows * columns).map(move |cell| (one, other, cell)))
        .filter(|&(one, other, cell)| is_larger(one, other, cell))
        .collect()
}

/// Moves units between the corners of a rectangle of cells, in one array one way and
/// in another of equal weight the other way. Every cell stays balanced and every
/// total as it is, but cells may leave their bounds.
fn move_units(generator: &mut Generator, plan: &mut Plan) {
    let (one, other) = two_of_equal_weight(generator, plan);
    let (rows, columns) = (plan.table.rows, plan.table.columns);
    let (top, bottom) = (generator.place(rows), generator.place(rows));
    let (left, right) = (generator.place(columns), generator.place(columns));
    if one == other || top == bottom || left == right {
        return;
    }
    let gaining = [top * columns + left, bottom * columns + right];
    let losing = [top * columns + right, bottom * columns + left];
    let has_units = |array: usize, cells: [usize; 2]| {
        cells
            .iter()
            .all(|&cell| plan.arrays[array].counts[cell] > 0)
    };
    if has_units(one, losing) && has_units(other, gaining) {
        for (gain, loss) in gaining.into_iter().zip(losing) {
            plan.arrays[one].counts[gain] += 1;
            plan.arrays[one].counts[loss] -= 1;
            plan.arrays[other].counts[gain] -= 1;
            plan.arrays[other].counts[loss] += 1;
        }
    }
}
