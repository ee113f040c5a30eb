//! Pairs of tables of one size, to be pooled.

use crate::lent_tables::{turned_back, with_negative_cell};
use reference::least_common_multiple;
use tables::{random_denominator, random_table_over, Generator, GivenPair, GivenPart, GivenTable};

/// The largest denominator, and so the largest multiple that is accepted.
const LARGEST: u64 = 65_535;

/// Multiples above it. 65,538 is the least: 65,536 and 65,537 are powers of a prime.
const TOO_LARGE: [u64; 8] = [
    65_538, 65_540, 65_542, 65_550, 65_792, 66_000, 131_070, 196_605,
];

/// The largest expected count of a cell.
const LARGEST_COUNT: u64 = 1000;

/// Two tables with at most so many rows and columns, each accepted by itself. Pooled they
/// may be turned back, and often they just are or just are not.
pub fn random_pair(generator: &mut Generator, largest: u32) -> GivenPair {
    let denominators = random_denominators(generator);
    let mut pair = random_pair_over(generator, largest, denominators);
    if generator.once_in(4) {
        return pair;
    }
    halve(&mut pair);
    if generator.once_in(2) {
        let beyond = generator.pick(&[-1, 0, 1]);
        set_at_bound(generator, &mut pair, beyond);
    }
    pair
}

/// A pair that is accepted pooled, and pairs with a multiple that is too large, with a
/// pooled cell that is, and with both.
pub fn accepted_and_refused(generator: &mut Generator, largest: u32) -> [GivenPair; 4] {
    let denominators = [
        accepted_denominators(generator),
        refused_denominators(generator),
    ];
    let [accepted, too_large] = denominators.map(|denominators| {
        let mut pair = random_pair_over(generator, largest, denominators);
        halve(&mut pair);
        pair
    });
    let [cell, both] = [&accepted, &too_large].map(|pair| {
        let mut pair = pair.clone();
        set_at_bound(generator, &mut pair, 1);
        pair
    });
    [accepted, too_large, cell, both]
}

/// The pair with every combination of changes to its size and to each of its tables.
pub fn pairs_turned_back(generator: &mut Generator, pair: &GivenPair) -> Vec<GivenPair> {
    let [firsts, seconds] = tables_of(pair).map(|table| turned_back(generator, &table));
    let mut pairs = Vec::new();
    // tables of one size stand side by side
    for (firsts, seconds) in firsts.chunk_by(same_size).zip(seconds.chunk_by(same_size)) {
        for first in firsts {
            pairs.extend(seconds.iter().map(|second| paired(first, second)));
        }
    }
    pairs
}

/// The pair with a cell below 0 in its first table, in its second and in both.
pub fn with_negative_cells(generator: &mut Generator, pair: &GivenPair) -> [GivenPair; 3] {
    let [first, second] = tables_of(pair);
    let below = [&first, &second].map(|table| with_negative_cell(generator, table));
    [
        paired(&below[0], &second),
        paired(&first, &below[1]),
        paired(&below[0], &below[1]),
    ]
}

/// The two tables of a pair.
fn tables_of(pair: &GivenPair) -> [GivenTable; 2] {
    [&pair.first, &pair.second].map(|part| GivenTable {
        rows: pair.rows,
        columns: pair.columns,
        denominator: part.denominator,
        cells: part.cells.clone(),
    })
}

fn same_size(one: &GivenTable, other: &GivenTable) -> bool {
    (one.rows, one.columns) == (other.rows, other.columns)
}

/// Two tables of one size.
fn paired(first: &GivenTable, second: &GivenTable) -> GivenPair {
    assert!(same_size(first, second), "a pair has one size");
    let part = |table: &GivenTable| GivenPart {
        denominator: table.denominator,
        cells: table.cells.clone(),
    };
    GivenPair {
        rows: first.rows,
        columns: first.columns,
        first: part(first),
        second: part(second),
    }
}

/// Two accepted tables over these denominators.
fn random_pair_over(generator: &mut Generator, largest: u32, denominators: [u64; 2]) -> GivenPair {
    let rows = generator.between(1, u64::from(largest)) as u32;
    let columns = generator.between(1, u64::from(largest)) as u32;
    let [first, second] = denominators
        .map(|denominator| random_table_over(generator, rows, columns, denominator as u32));
    paired(&first, &second)
}

/// Two denominators: equal ones, some without a common divisor, some of which one divides
/// the other, some with a multiple at the bound or above, small and random ones.
fn random_denominators(generator: &mut Generator) -> [u64; 2] {
    let mut both = match generator.below(7) {
        0 => [u64::from(random_denominator(generator)); 2],
        1 => coprime(generator),
        2 => dividing(generator),
        3 => with_multiple(generator, LARGEST),
        4 => refused_denominators(generator),
        5 => [generator.between(1, 300), generator.between(1, 300)],
        _ => [(); 2].map(|()| u64::from(random_denominator(generator))),
    };
    generator.shuffle(&mut both);
    both
}

/// Two denominators with a multiple that is accepted.
fn accepted_denominators(generator: &mut Generator) -> [u64; 2] {
    loop {
        let [one, other] = random_denominators(generator);
        if least_common_multiple(one, other) <= LARGEST {
            return [one, other];
        }
    }
}

/// Two denominators with a multiple that is too large.
fn refused_denominators(generator: &mut Generator) -> [u64; 2] {
    let multiple = generator.pick(&TOO_LARGE);
    with_multiple(generator, multiple)
}

/// Two numbers without a common divisor, whose product is a denominator.
fn coprime(generator: &mut Generator) -> [u64; 2] {
    loop {
        let one = generator.between(1, 255);
        let other = generator.between(1, LARGEST / one);
        if least_common_multiple(one, other) == one * other {
            return [one, other];
        }
    }
}

/// Two denominators of which the first divides the second.
fn dividing(generator: &mut Generator) -> [u64; 2] {
    let times = generator.between(1, 300);
    let one = generator.between(1, LARGEST / times);
    [one, times * one]
}

/// Two denominators with this least common multiple, in one of all ways.
fn with_multiple(generator: &mut Generator, multiple: u64) -> [u64; 2] {
    let divisors: Vec<u64> = (1..=LARGEST)
        .filter(|number| multiple % number == 0)
        .collect();
    loop {
        let (one, other) = (generator.pick(&divisors), generator.pick(&divisors));
        if least_common_multiple(one, other) == multiple {
            return [one, other];
        }
    }
}

/// Halves all cells, so that every pooled cell is within its bound.
fn halve(pair: &mut GivenPair) {
    for part in [&mut pair.first, &mut pair.second] {
        for cell in &mut part.cells {
            *cell /= 2;
        }
    }
}

/// Puts two accepted cells at one place, whose pooled cell is this much beyond its bound:
/// at it, one more or one less.
fn set_at_bound(generator: &mut Generator, pair: &mut GivenPair, beyond: i64) {
    let place = generator.place(pair.first.cells.len());
    let denominators = [&pair.first, &pair.second].map(|part| u64::from(part.denominator));
    let [first, second] = cells_at_bound(generator, denominators, beyond);
    pair.first.cells[place] = first;
    pair.second.cells[place] = second;
}

/// Two such cells. Those of the first table are tried in turn, from one of the ends or
/// from a random one on.
fn cells_at_bound(generator: &mut Generator, [one, other]: [u64; 2], beyond: i64) -> [u32; 2] {
    let multiple = least_common_multiple(one, other);
    let (times_one, times_other) = (multiple / one, multiple / other);
    let pooled = (LARGEST_COUNT * multiple)
        .checked_add_signed(beyond)
        .expect("it is beside the bound");
    let most = LARGEST_COUNT * one;
    let random = generator.between(0, most);
    let start = generator.pick(&[0, most, random, random]);
    let second = |first: u64| {
        let rest = pooled.checked_sub(times_one * first)?;
        let is_cell = rest % times_other == 0 && rest / times_other <= LARGEST_COUNT * other;
        is_cell.then(|| [first as u32, (rest / times_other) as u32])
    };
    (start..=most)
        .chain(0..start)
        .find_map(second)
        .expect("the bound and the numbers beside it are sums of such cells")
}
