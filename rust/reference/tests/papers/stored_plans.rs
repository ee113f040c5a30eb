//! Stored form 1 and the conditions of opening.

use crate::samples::{accepted, listed_plan, stored_plan, table};
use reference::{
    array, encode, number_of, open, plan_of, stored_length, Array, Plan, Refusal, Table,
};
use tables::{random_table, Generator};

fn answer(plan: &Plan) -> Option<Refusal> {
    open(&encode(plan)).err()
}

/// The number that the array call returns, and the buffers for weight and counts as it
/// leaves them.
fn told(bytes: &[u8], number: u32, rooms: [usize; 2]) -> (u32, Vec<u32>, Vec<u16>) {
    let (mut weight, mut counts) = (vec![8; rooms[0]], vec![8; rooms[1]]);
    let answer = array(bytes, number, &mut weight, &mut counts);
    (number_of(answer), weight, counts)
}

/// The same for a call that is refused by a number and leaves both as they were.
fn refused(by: u32, rooms: [usize; 2]) -> (u32, Vec<u32>, Vec<u16>) {
    (by, vec![8; rooms[0]], vec![8; rooms[1]])
}

#[test]
fn the_bytes_of_a_small_plan() {
    let bytes = stored_plan(&table(1, 2, 300, &[300, 550]));
    let expected = [
        [1, 0, 1, 2, 2, 0, 0, 0],
        [44, 1, 0, 0, 32, 0, 0, 0],
        [50, 0, 0, 0, 40, 0, 0, 0],
        [250, 0, 0, 0, 44, 0, 0, 0],
        [44, 1, 0, 0, 38, 2, 0, 0],
        [1, 0, 1, 0, 1, 0, 2, 0],
    ];
    assert_eq!(bytes, expected.concat());
}

#[test]
fn shortest_and_longest_stored_plan() {
    assert_eq!(stored_length(1, 1), 30);
    assert_eq!(stored_length(170, 144), 50_912);
    let zeros = table(12, 12, 65_535, &[0; 144]);
    let mut plan = Plan::new(zeros, vec![(1, [0; 144]); 170]);
    plan.arrays[169].weight = 65_535 - 169;
    assert_eq!(encode(&plan).len(), 50_912);
    assert_eq!(answer(&plan), None);
}

#[test]
fn plans_of_random_tables_open_to_themselves() {
    let mut generator = Generator::new(41);
    for _ in 0..200 {
        let plan = plan_of(&accepted(&random_table(&mut generator, 6)));
        assert_eq!(open(&encode(&plan)), Ok(plan));
    }
}

#[test]
fn every_wrong_length_is_refused() {
    let bytes = encode(&listed_plan());
    for length in 0..bytes.len() {
        assert_eq!(open(&bytes[..length]), Err(Refusal::Layout));
    }
}

#[test]
fn every_changed_bit_is_refused_by_its_field() {
    let bytes = encode(&listed_plan());
    let is_weight = |position: usize| (16..48).contains(&position) && position % 8 < 4;
    for position in 0..bytes.len() {
        for bit in 0..8 {
            let mut changed = bytes.clone();
            changed[position] ^= 1 << bit;
            let refusal = match position {
                8 | 9 => Refusal::Content,
                _ if position >= 48 || is_weight(position) => Refusal::Content,
                _ => Refusal::Layout,
            };
            assert_eq!(open(&changed), Err(refusal), "byte {position}, bit {bit}");
        }
    }
}

#[test]
fn bounds_are_tested_even_if_the_rest_agrees() {
    let zeros = |rows: usize, columns: usize, weights: &[u64]| {
        let cells = vec![0; rows * columns];
        let arrays = weights.iter().map(|&weight| (weight, cells.clone()));
        let table = Table {
            rows,
            columns,
            denominator: weights.iter().sum(),
            cells: cells.clone(),
        };
        answer(&Plan::new(table, arrays))
    };
    assert_eq!(zeros(12, 12, &[65_535]), None);
    assert_eq!(zeros(13, 1, &[1]), Some(Refusal::Layout));
    assert_eq!(zeros(1, 13, &[1]), Some(Refusal::Layout));
    assert_eq!(zeros(0, 1, &[1]), Some(Refusal::Layout));
    assert_eq!(zeros(1, 0, &[1]), Some(Refusal::Layout));
    assert_eq!(zeros(1, 1, &[65_536]), Some(Refusal::Layout));
    assert_eq!(zeros(1, 1, &[]), Some(Refusal::Layout));
    assert_eq!(zeros(1, 1, &[1; 170]), None);
    assert_eq!(zeros(1, 1, &[1; 171]), Some(Refusal::Layout));
    assert_eq!(zeros(1, 1, &[1, 0]), Some(Refusal::Content));
}

#[test]
fn a_cell_above_a_thousand_is_refused_even_if_the_rest_agrees() {
    let mut plan = Plan::new(table(1, 1, 2, &[2000]), [(2, [1000])]);
    assert_eq!(answer(&plan), None);
    plan.table.cells[0] = 2002;
    plan.arrays[0].counts[0] = 1001;
    assert_eq!(answer(&plan), Some(Refusal::Content));
}

#[test]
fn weights_are_added_without_a_wrap() {
    let plan = Plan::new(table(1, 1, 2, &[2]), [(4_294_967_295, [1]), (3, [1])]);
    assert_eq!(answer(&plan), Some(Refusal::Content));
}

#[test]
fn a_whole_cell_must_stay() {
    let plan = Plan::new(table(1, 1, 2, &[2]), [(1, [0]), (1, [2])]);
    assert_eq!(answer(&plan), Some(Refusal::Content));
}

#[test]
fn a_row_total_must_stay_within_its_bounds() {
    let plan = Plan::new(table(1, 2, 2, &[1, 1]), [(1, [0, 0]), (1, [1, 1])]);
    assert_eq!(answer(&plan), Some(Refusal::Content));
}

#[test]
fn a_column_total_must_stay_within_its_bounds() {
    let plan = Plan::new(table(2, 1, 2, &[1, 1]), [(1, [0, 0]), (1, [1, 1])]);
    assert_eq!(answer(&plan), Some(Refusal::Content));
}

#[test]
fn no_order_is_demanded() {
    let mut plan = listed_plan();
    plan.arrays.reverse();
    assert_eq!(answer(&plan), None);
}

#[test]
fn arrays_are_told_from_1_on_and_the_rest_of_the_buffers_stays() {
    let bytes = encode(&listed_plan());
    let arrays = [
        (2, [0, 0, 0, 1]),
        (1, [0, 0, 1, 1]),
        (4, [0, 1, 1, 0]),
        (3, [1, 0, 0, 1]),
    ];
    for (number, (weight, counts)) in (1..).zip(arrays) {
        let just = (0, vec![weight], counts.to_vec());
        assert_eq!(told(&bytes, number, [1, 4]), just);
        let longer = (0, vec![weight, 8, 8], [&counts[..], &[8]].concat());
        assert_eq!(told(&bytes, number, [3, 5]), longer);
    }
}

#[test]
fn told_arrays_are_those_of_the_plan() {
    let mut generator = Generator::new(42);
    for _ in 0..100 {
        let mut plan = plan_of(&accepted(&random_table(&mut generator, 5)));
        generator.shuffle(&mut plan.arrays);
        let bytes = encode(&plan);
        for (number, array) in (1..).zip(&plan.arrays) {
            let (answer, weight, counts) = told(&bytes, number, [1, plan.table.size()]);
            let found = Array {
                weight: u64::from(weight[0]),
                counts: counts.into_iter().map(u64::from).collect(),
            };
            assert_eq!((answer, &found), (0, array));
        }
    }
}

#[test]
fn an_array_needs_a_plan_that_opens_then_its_number_then_room() {
    let good = encode(&listed_plan());
    let misplaced = [&good[..], &[0]].concat();
    let mut unbalanced = good.clone();
    unbalanced[48] ^= 1;
    for rooms in [[1, 4], [0, 4], [1, 3], [0, 0]] {
        for number in [0, 1, 5] {
            assert_eq!(told(&misplaced, number, rooms), refused(5, rooms));
            assert_eq!(told(&unbalanced, number, rooms), refused(6, rooms));
        }
        for number in [0, 5, 171, 1 << 31, u32::MAX] {
            assert_eq!(told(&good, number, rooms), refused(14, rooms));
        }
    }
    for rooms in [[0, 4], [1, 3], [0, 3], [0, 0]] {
        assert_eq!(told(&good, 4, rooms), refused(7, rooms));
    }
}
