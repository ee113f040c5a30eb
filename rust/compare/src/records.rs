//! Campaign records: arbitrary ones, such as fit a plan, and damage to them.

use crate::buffer::{enough, Buffer};
use reference::{bytes_of_bits, Plan, ROUNDS};
use tables::{literal, Generator};

/// A campaign record.
#[derive(Clone, Debug, PartialEq)]
pub struct Record {
    pub taken: u32,
    pub rounds: u16,
    pub bits: Buffer<u8>,
    pub tally: Buffer<u64>,
}

impl Record {
    /// Any contents, in buffers of these lengths.
    pub fn random(generator: &mut Generator, bits: usize, tally: usize) -> Record {
        Record {
            taken: generator.bits() as u32,
            rounds: generator.bits() as u16,
            bits: Buffer::random(generator, bits),
            tally: Buffer::random(generator, tally),
        }
    }

    /// A record that holds and lends just this.
    pub fn holding(generator: &mut Generator, record: &literal::campaign::Record) -> Record {
        Record::random(generator, record.bits.len(), record.tally.len()).with(record)
    }

    /// The same record with these contents, which are as long.
    pub fn with(&self, record: &literal::campaign::Record) -> Record {
        Record {
            taken: record.taken,
            rounds: record.rounds,
            bits: self.bits.with(&record.bits),
            tally: self.tally.with(&record.tally),
        }
    }

    /// A record that fits the plan, in the first or the last rounds, in one between or after
    /// all of them, with a random part of the numbers taken.
    pub fn fitting(generator: &mut Generator, plan: &Plan) -> Record {
        let between = generator.between(2, 997) as u16;
        let rounds = generator.pick(&[0, 1, between, ROUNDS - 2, ROUNDS - 1, ROUNDS]);
        let share = generator.between(0, 4);
        Record::fitting_in(generator, plan, rounds, share)
    }

    /// The same after so many rounds, with about so many quarters of the numbers taken; with
    /// four quarters one number is free. After the last round none is taken.
    pub fn fitting_in(generator: &mut Generator, plan: &Plan, rounds: u16, share: u64) -> Record {
        let bits = bytes_of_bits(plan.table.denominator);
        let cells = plan.table.size();
        let (bits_room, tally_room) = (enough(generator, bits), enough(generator, cells));
        let mut record = Record::random(generator, bits_room, tally_room);
        record.taken = 0;
        record.rounds = 0;
        record.bits.lent_mut()[..bits].fill(0);
        record.tally.lent_mut()[..cells].fill(0);
        record.move_to_round(plan, rounds);
        let free = generator.below(plan.table.denominator);
        for number in 0..plan.table.denominator {
            if number != free && rounds < ROUNDS && generator.below(4) < share {
                record.take(plan, number);
            }
        }
        record
    }

    /// A number that is free, of a record that has one.
    pub fn free_number(&self, generator: &mut Generator, plan: &Plan) -> u32 {
        let free = (0..plan.table.denominator).filter(|&number| !self.is_taken(number));
        generator.pick(&free.collect::<Vec<u64>>()) as u32
    }

    /// Takes a number that is not taken yet; no round is completed by it.
    fn take(&mut self, plan: &Plan, number: u64) {
        self.taken = self.taken.wrapping_add(1);
        self.bits.lent_mut()[(number / 8) as usize] |= 1 << (number % 8);
        let array = plan.array_of(number);
        for (sum, &count) in self.tally.lent_mut().iter_mut().zip(&array.counts) {
            *sum = sum.wrapping_add(count);
        }
    }

    /// Takes all numbers that are free.
    fn take_rest(&mut self, plan: &Plan) {
        for number in 0..plan.table.denominator {
            if !self.is_taken(number) {
                self.take(plan, number);
            }
        }
    }

    /// Sets the rounds, and the part of the tally that they have drawn.
    fn move_to_round(&mut self, plan: &Plan, rounds: u16) {
        self.move_tally(plan, self.rounds, rounds);
        self.rounds = rounds;
    }

    /// Puts in the tally what so many rounds have drawn in place of what so many have.
    fn move_tally(&mut self, plan: &Plan, from: u16, to: u16) {
        for (sum, &cell) in self.tally.lent_mut().iter_mut().zip(&plan.table.cells) {
            *sum = sum
                .wrapping_sub(u64::from(from) * cell)
                .wrapping_add(u64::from(to) * cell);
        }
    }

    fn flip(&mut self, number: u64) {
        self.bits.lent_mut()[(number / 8) as usize] ^= 1 << (number % 8);
    }

    fn is_taken(&self, number: u64) -> bool {
        self.bits.lent()[(number / 8) as usize] >> (number % 8) & 1 == 1
    }
}

/// What is wrong with a record, and the change to one that fits which makes it so.
pub type Unfit = (&'static str, fn(&Plan, &mut Record));

/// Changes to any record that fits, each of which breaks one condition, where the
/// denominator leaves spare bits, draws 0 and 1 write something and the first cell is not 0.
pub const UNFIT: &[Unfit] = &[
    ("a round more", |_, record| record.rounds += 1),
    ("65,535 rounds", |_, record| record.rounds = u16::MAX),
    ("1,001 rounds and their tally", |plan, record| {
        record.move_to_round(plan, 1001)
    }),
    ("65,535 rounds and their tally", |plan, record| {
        record.move_to_round(plan, u16::MAX)
    }),
    ("no number free", |plan, record| record.take_rest(plan)),
    ("taken after the last round", |plan, record| {
        if record.taken == 0 {
            record.take(plan, 0);
        }
        record.move_to_round(plan, ROUNDS)
    }),
    ("one counted too many", |_, record| record.taken += 1),
    ("all counted", |plan, record| {
        record.taken = plan.table.denominator as u32
    }),
    ("a bit flipped", |_, record| record.flip(0)),
    ("a bit flipped and counted", |_, record| {
        record.flip(1);
        let change = if record.is_taken(1) { 1 } else { u32::MAX };
        record.taken = record.taken.wrapping_add(change)
    }),
    ("the first spare bit", |plan, record| {
        record.flip(plan.table.denominator)
    }),
    ("the last spare bit, counted", |plan, record| {
        record.flip(8 * bytes_of_bits(plan.table.denominator) as u64 - 1);
        record.taken += 1
    }),
    ("a sum one too large", |_, record| {
        record.tally.lent_mut()[0] += 1
    }),
    ("a sum one too small", |_, record| {
        let sum = &mut record.tally.lent_mut()[0];
        *sum = sum.wrapping_sub(1)
    }),
    ("the upper 32 bits one too large", |_, record| {
        record.tally.lent_mut()[0] += 1 << 32
    }),
    ("the last bit of a sum", |_, record| {
        record.tally.lent_mut()[0] ^= 1 << 63
    }),
    ("a round too much in the tally", |plan, record| {
        record.move_tally(plan, 0, 1)
    }),
];

/// The same for a record with a round completed.
pub const UNFIT_AFTER_A_ROUND: &[Unfit] = &[
    ("a round less", |_, record| record.rounds -= 1),
    ("no round", |_, record| record.rounds = 0),
    ("a tally without the rounds", |plan, record| {
        record.move_tally(plan, record.rounds, 0)
    }),
];

/// Changes one part of a record. A few of the changes leave a record that fits.
pub fn damage(generator: &mut Generator, plan: &Plan, record: &mut Record) {
    let denominator = plan.table.denominator;
    match generator.below(14) {
        0 => record.taken = record.taken.wrapping_add(1),
        1 => record.taken = record.taken.wrapping_sub(1),
        2 => record.taken = generator.pick(&[0, 1, denominator as u32, u32::MAX]),
        3 => record.flip(generator.below(denominator)),
        4 => flip_spare_bit(generator, denominator, record),
        5 => change_sum(generator, plan, record),
        6 => move_between_sums(generator, plan, record),
        7 => move_taken_number(generator, denominator, record),
        8 => record.rounds = record.rounds.wrapping_add(1),
        9 => record.rounds = record.rounds.wrapping_sub(1),
        10 => record.rounds = generator.pick(&NOTABLE_ROUNDS),
        11 => record.move_to_round(plan, generator.pick(&NOTABLE_ROUNDS)),
        12 => record.move_tally(plan, record.rounds, 0),
        _ => record.take_rest(plan),
    }
}

/// Rounds that bounds speak of, and those beside them.
const NOTABLE_ROUNDS: [u16; 7] = [0, 1, 998, 999, 1000, 1001, u16::MAX];

/// Flips a bit after those of the numbers in the last byte, if there is one.
fn flip_spare_bit(generator: &mut Generator, denominator: u64, record: &mut Record) {
    let end = 8 * bytes_of_bits(denominator) as u64;
    if denominator < end {
        record.flip(generator.between(denominator, end - 1));
    }
}

fn change_sum(generator: &mut Generator, plan: &Plan, record: &mut Record) {
    let cell = generator.place(plan.table.size());
    let change = generator.pick(&[1, u64::MAX, 1 << 16, 1 << 31, 1 << 32, 1 << 63]);
    let sum = &mut record.tally.lent_mut()[cell];
    *sum = sum.wrapping_add(change);
}

/// Moves a unit from one cell's sum to another's; the whole tally keeps its sum.
fn move_between_sums(generator: &mut Generator, plan: &Plan, record: &mut Record) {
    let (from, to) = (
        generator.place(plan.table.size()),
        generator.place(plan.table.size()),
    );
    let tally = record.tally.lent_mut();
    tally[from] = tally[from].wrapping_sub(1);
    tally[to] = tally[to].wrapping_add(1);
}

/// Frees a taken number and takes another instead; the record still fits if both
/// belong to equal arrays.
fn move_taken_number(generator: &mut Generator, denominator: u64, record: &mut Record) {
    let all: Vec<u64> = (0..denominator).collect();
    let (taken, free): (Vec<u64>, Vec<u64>) =
        all.into_iter().partition(|&number| record.is_taken(number));
    if !taken.is_empty() && !free.is_empty() {
        record.flip(generator.pick(&taken));
        record.flip(generator.pick(&free));
    }
}
