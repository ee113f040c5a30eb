//! Correction sheets: what is accepted, every refusal, and the first controlled rounding.

use lufodimi::{Corrections, Refusal, Table};

fn refusal(rows: u32, columns: u32, denominator: u32, cells: Vec<i32>) -> Option<u32> {
    let corrections = Corrections::new(rows, columns, denominator, cells);
    corrections.err().map(Refusal::number)
}

/// The rounding of a sheet that must be accepted.
fn rounded(rows: u32, columns: u32, denominator: u32, cells: &[i32]) -> Vec<i16> {
    let corrections = Corrections::new(rows, columns, denominator, cells);
    corrections.expect("accepted").round()
}

#[test]
fn down_is_towards_minus_infinity() {
    assert_eq!(rounded(1, 1, 2, &[-1]), [-1]);
    assert_eq!(rounded(1, 1, 3, &[-1]), [-1]);
    assert_eq!(rounded(1, 1, 3, &[-2]), [-1]);
    assert_eq!(rounded(1, 1, 3, &[-4]), [-2]);
    assert_eq!(rounded(1, 1, 65_535, &[-1]), [-1]);
    assert_eq!(rounded(1, 1, 65_535, &[-65_534_999]), [-1000]);
}

#[test]
fn the_smaller_count_goes_first() {
    assert_eq!(rounded(1, 2, 2, &[-1, -1]), [-1, 0]);
    assert_eq!(rounded(2, 1, 2, &[-1, -1]), [-1, 0]);
    assert_eq!(rounded(1, 3, 2, &[-1, -1, -1]), [-1, -1, 0]);
    assert_eq!(rounded(2, 2, 2, &[-1, -1, -1, -1]), [-1, 0, 0, -1]);
    assert_eq!(rounded(2, 2, 10, &[-3, -4, -5, -6]), [-1, 0, 0, -1]);
}

#[test]
fn signs_are_mixed() {
    assert_eq!(rounded(1, 2, 2, &[-1, 1]), [-1, 1]);
    assert_eq!(rounded(1, 2, 2, &[1, -1]), [0, 0]);
    assert_eq!(rounded(2, 2, 10, &[-3, 4, 5, -6]), [-1, 1, 1, -1]);
    assert_eq!(rounded(2, 2, 4, &[-6, 1, 2, -3]), [-2, 0, 1, -1]);
    let counted = [-6, 1, 0, -3, 2, -3, -2, 4, 0, -5, -10, 1];
    let booked = [-2, 0, 0, 0, 1, -1, -1, 1, 0, -1, -2, 0];
    assert_eq!(rounded(3, 4, 4, &counted), booked);
}

#[test]
fn whole_entries_stay() {
    // cells
    assert_eq!(rounded(1, 2, 4, &[-4, -6]), [-1, -2]);
    assert_eq!(rounded(2, 2, 7, &[-7, 0, 7, -7000]), [-1, 0, 1, -1000]);
    // the row totals -2 and 1, where no column total is whole
    assert_eq!(rounded(2, 2, 4, &[-6, -2, 3, 1]), [-2, 0, 1, 0]);
    // the column totals -2 and 1, where no row total is whole
    assert_eq!(rounded(2, 2, 4, &[-6, 3, -2, 1]), [-2, 1, 0, 0]);
    // the grand total -1, where nothing else is whole
    assert_eq!(rounded(2, 2, 5, &[-1, -1, -1, -2]), [-1, 0, 0, 0]);
}

/// All entries: cells, row totals, column totals and the grand total.
fn entries(columns: usize, cells: &[i32]) -> Vec<i32> {
    let row_totals = cells.chunks(columns).map(|row| row.iter().sum::<i32>());
    let column = |start| cells.iter().skip(start).step_by(columns);
    let column_totals = (0..columns).map(|start| column(start).sum::<i32>());
    let totals = row_totals.chain(column_totals);
    let grand_total = cells.iter().sum::<i32>();
    cells
        .iter()
        .copied()
        .chain(totals)
        .chain([grand_total])
        .collect()
}

#[test]
fn every_entry_is_rounded_down_or_up() {
    let cells: Vec<i32> = (0..144).map(|place| place * 455 % 4000 - 2000).collect();
    for denominator in [2, 3, 7, 100, 1000] {
        let counts = rounded(12, 12, denominator as u32, &cells);
        let counts: Vec<i32> = counts.into_iter().map(i32::from).collect();
        for (entry, count) in entries(12, &cells).into_iter().zip(entries(12, &counts)) {
            let down = entry.div_euclid(denominator);
            let up = down + i32::from(entry.rem_euclid(denominator) > 0);
            assert!(count == down || count == up, "{entry}: {count}");
        }
    }
}

#[test]
fn corrections_are_refused_by_1_to_4() {
    assert_eq!(refusal(13, 1, 1, vec![0; 13]), Some(1));
    assert_eq!(refusal(1, 0, 1, vec![]), Some(1));
    assert_eq!(refusal(1, 1, 0, vec![0]), Some(2));
    assert_eq!(refusal(1, 1, 65_536, vec![0]), Some(2));
    assert_eq!(refusal(1, 2, 1, vec![0]), Some(3));
    assert_eq!(refusal(1, 2, 1, vec![0; 3]), Some(3));
    assert_eq!(refusal(1, 1, 1, vec![1001]), Some(4));
    assert_eq!(refusal(1, 1, 1, vec![-1001]), Some(4));
    assert_eq!(refusal(2, 2, 10, vec![0, 0, 0, -10_001]), Some(4));
    assert_eq!(refusal(2, 2, 65_535, vec![i32::MIN, 0, 0, 0]), Some(4));
    assert_eq!(refusal(2, 2, 65_535, vec![0, 0, 0, i32::MAX]), Some(4));
}

#[test]
fn the_lowest_refusal_is_returned() {
    assert_eq!(refusal(0, 1, 0, vec![-1]), Some(1));
    assert_eq!(refusal(u32::MAX, u32::MAX, 1, vec![0]), Some(1));
    assert_eq!(refusal(1, 2, 0, vec![-1]), Some(2));
    assert_eq!(refusal(1, 2, 1, vec![-1001]), Some(3));
}

#[test]
fn the_bounds_are_those_of_a_table_on_both_sides_of_0() {
    let denominator = Table::MAX_DENOMINATOR;
    let large = (Table::MAX_COUNT * denominator) as i32;
    assert_eq!(rounded(12, 12, denominator, &[-large; 144]), [-1000; 144]);
    assert_eq!(rounded(12, 12, denominator, &[large; 144]), [1000; 144]);
    let both = [-large, large, large, -large];
    assert_eq!(
        rounded(2, 2, denominator, &both),
        [-1000, 1000, 1000, -1000]
    );
    assert_eq!(refusal(1, 1, denominator, vec![large + 1]), Some(4));
    assert_eq!(refusal(1, 1, denominator, vec![-large - 1]), Some(4));
}

#[test]
fn cells_come_as_array_slice_or_vec() {
    let corrections = Corrections::new(1, 2, 4, [-4, 6]);
    let cells = vec![-4, 6];
    assert_eq!(Corrections::new(1, 2, 4, &cells[..]), corrections);
    assert_eq!(Corrections::new(1, 2, 4, cells), corrections);
}

#[test]
fn a_table_is_a_correction_sheet_with_the_same_rounding() {
    let standing = [45, 23, 0, 12, 31, 26, 4, 19, 0, 14, 52, 14];
    let spread: Vec<u32> = (0..144).map(|place| place * 455_455 % 65_535_001).collect();
    for table in [
        Table::new(2, 2, 2, [1, 1, 1, 1]),
        Table::new(2, 2, 10, [3, 4, 5, 6]),
        Table::new(3, 4, 10, standing),
        Table::new(12, 12, 65_535, spread),
        Table::new(12, 12, 65_535, [65_535_000; 144]),
    ] {
        let table = table.expect("accepted");
        let corrections = Corrections::from(&table);
        let cells: Vec<i32> = table.cells().iter().map(|&cell| cell as i32).collect();
        let (rows, columns) = (table.rows(), table.columns());
        let anew = Corrections::new(rows, columns, table.denominator(), cells);
        assert_eq!(anew.as_ref(), Ok(&corrections));

        let counts = corrections.round().into_iter().map(i32::from);
        assert!(counts.eq(table.round().into_iter().map(i32::from)));
    }
}

#[test]
fn no_table_has_a_negative_cell() {
    for cell in [-1, -1000, -65_535_000, i32::MIN] {
        let table = Table::new(1, 2, 65_535, [3, cell as u32]);
        assert_eq!(table, Err(Refusal::LargeCell));
    }
}
