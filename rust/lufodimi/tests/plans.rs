//! Plans: what they tell, what does not open, and draws.

use lufodimi::{Array, Plan, Refusal, Table};

fn table() -> Table {
    Table::new(2, 3, 1000, [300_400, 70, 65_936, 1500, 260, 999]).expect("accepted")
}

#[test]
fn a_plan_tells_its_sizes_and_its_table() {
    let plan = Plan::of(&table());
    assert_eq!((plan.rows(), plan.columns()), (2, 3));
    assert_eq!((plan.denominator(), plan.array_count()), (1000, 7));
    assert_eq!(plan.cells(), table().cells());
    assert_eq!(plan.table(), &table());
}

/// An array as a plan has it.
fn array<const CELLS: usize>(weight: u32, counts: [u16; CELLS]) -> Array {
    Array {
        weight,
        counts: counts.to_vec(),
    }
}

#[test]
fn a_plan_has_its_arrays_in_order() {
    let expected = [
        array(100, [300, 0, 66, 1, 1, 1]),
        array(494, [300, 0, 66, 2, 0, 1]),
        array(1, [300, 1, 66, 2, 0, 0]),
        array(5, [300, 1, 66, 2, 0, 1]),
        array(176, [301, 0, 66, 1, 0, 1]),
        array(160, [301, 0, 66, 1, 1, 1]),
        array(64, [301, 1, 65, 1, 0, 1]),
    ];
    let plan = Plan::of(&table());
    assert_eq!(plan.arrays().collect::<Vec<_>>(), expected);
    let mut backwards: Vec<Array> = plan.arrays().rev().collect();
    backwards.reverse();
    assert_eq!(backwards, expected);
    assert_eq!((plan.arrays().len(), plan.arrays().count()), (7, 7));
    assert_eq!(plan.arrays().nth(4).as_ref(), Some(&expected[4]));
    assert_eq!(plan.arrays().nth(7), None);
}

#[test]
fn an_array_is_told_by_its_number_from_1() {
    let plan = Plan::of(&table());
    for (number, array) in (1..).zip(plan.arrays()) {
        assert_eq!(plan.array(number), Ok(array));
    }
    for number in [0, 8, 257, 65_537, 1 << 31, u32::MAX] {
        assert_eq!(plan.array(number), Err(Refusal::Array));
    }
}

#[test]
fn an_array_has_as_many_numbers_in_turn_as_its_weight_says() {
    let plan = Plan::of(&table());
    let mut numbers = 0..plan.denominator();
    for array in plan.arrays() {
        for number in numbers.by_ref().take(array.weight as usize) {
            assert_eq!(plan.draw(number).as_ref(), Ok(&array.counts));
        }
    }
    assert!(numbers.is_empty());
}

#[test]
fn stored_and_opened_it_is_the_same() {
    let plan = Plan::of(&table());
    assert_eq!(Plan::open(plan.as_bytes()), Ok(plan.clone()));
    assert_eq!(Plan::open(plan.clone().into_bytes()), Ok(plan));
}

#[test]
fn the_largest_table_has_a_plan() {
    let cells: Vec<u32> = (0..144).map(|place| place * 455 % 65_535).collect();
    let table = Table::new(12, 12, 65_535, cells).expect("accepted");
    let plan = Plan::of(&table);
    assert_eq!(plan.table(), &table);
    assert_eq!(plan.draw(65_534).map(|counts| counts.len()), Ok(144));
}

#[test]
fn bytes_are_refused_by_5_and_6() {
    let bytes = Plan::of(&table()).into_bytes();
    let refusal = |bytes: &[u8]| Plan::open(bytes).err();
    assert_eq!(refusal(&[]), Some(Refusal::Layout));
    assert_eq!(refusal(&[&bytes[..], &[0]].concat()), Some(Refusal::Layout));
    assert_eq!(refusal(&bytes[1..]), Some(Refusal::Layout));
    let mut heavy = bytes.clone();
    heavy[16] += 1;
    assert_eq!(refusal(&heavy), Some(Refusal::Content));
    heavy.push(0);
    assert_eq!(refusal(&heavy), Some(Refusal::Layout));
}

/// One cell 1 over 1, with the count 1 of weight 1 and again of weight 0: all is rounded and
/// adds up.
#[rustfmt::skip]
const WITHOUT_WEIGHT: [u8; 40] = [
    1, 0, 1, 1, 2, 0, 0, 0,
    1, 0, 0, 0, 32, 0, 0, 0,
    1, 0, 0, 0, 36, 0, 0, 0,
    0, 0, 0, 0, 38, 0, 0, 0,
    1, 0, 0, 0,
    1, 0,
    1, 0,
];

#[test]
fn a_weight_of_0_is_refused_by_6() {
    assert_eq!(Plan::open(WITHOUT_WEIGHT), Err(Refusal::Content));
}

/// Cells 1 1, 1 0 over 2, with the arrays 1 0, 0 0 and 0 1, 1 0, weight 1 each.
#[rustfmt::skip]
const VARYING: [u8; 64] = [
    1, 0, 2, 2, 2, 0, 0, 0,
    2, 0, 0, 0, 32, 0, 0, 0,
    1, 0, 0, 0, 48, 0, 0, 0,
    1, 0, 0, 0, 56, 0, 0, 0,
    1, 0, 0, 0, 1, 0, 0, 0, 1, 0, 0, 0, 0, 0, 0, 0,
    1, 0, 0, 0, 0, 0, 0, 0,
    0, 0, 1, 0, 1, 0, 0, 0,
];

#[test]
fn a_foreign_plan_opens_whose_grand_total_is_rounded_down_and_up() {
    let plan = Plan::open(VARYING).expect("grand totals 1 and 2 where 3 over 2 is planned");
    assert_eq!(plan.cells(), [1, 1, 1, 0]);
    let arrays = [array(1, [1, 0, 0, 0]), array(1, [0, 1, 1, 0])];
    assert!(plan.arrays().eq(arrays));
    assert_eq!(plan.draw(0), Ok(vec![1, 0, 0, 0]));
    assert_eq!(plan.draw(1), Ok(vec![0, 1, 1, 0]));
}

#[test]
fn draws_add_up_to_the_table_and_others_are_refused_by_8() {
    let plan = Plan::of(&table());
    let mut sums = vec![0; 6];
    for number in 0..plan.denominator() {
        let counts = plan.draw(number).expect("below the denominator");
        for (sum, count) in sums.iter_mut().zip(counts) {
            *sum += u32::from(count);
        }
    }
    assert_eq!(sums, plan.cells());
    assert_eq!(plan.draw(1000), Err(Refusal::Number));
    assert_eq!(plan.draw(u32::MAX), Err(Refusal::Number));
}
