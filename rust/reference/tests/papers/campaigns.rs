//! Campaigns from their start, over rounds, to their last number.

use crate::samples::{accepted, stored_plan, table};
use reference::{bytes_of_bits, campaign_draw, draw, entries, start, Refusal, Table, ROUNDS};
use std::collections::BTreeSet;
use tables::{random_table, Generator};

/// A record and a buffer for arrays, all longer than needed and filled with a pattern.
#[derive(Clone, Debug, PartialEq)]
struct Campaign {
    plan: Vec<u8>,
    taken: u32,
    rounds: u16,
    bits: Vec<u8>,
    tally: Vec<u64>,
    counts: Vec<u16>,
}

impl Campaign {
    fn of(table: &Table) -> Campaign {
        Campaign {
            plan: stored_plan(table),
            taken: 77,
            rounds: 777,
            bits: vec![0xA5; bytes_of_bits(table.denominator) + 1],
            tally: vec![0xA5A5; table.size() + 1],
            counts: vec![0x5A5A; table.size() + 1],
        }
    }

    /// One that is started.
    fn started(table: &Table) -> Campaign {
        let mut campaign = Campaign::of(table);
        campaign.start().expect("accepted");
        campaign
    }

    fn start(&mut self) -> Result<(), Refusal> {
        start(
            &self.plan,
            &mut self.taken,
            &mut self.rounds,
            &mut self.bits,
            &mut self.tally,
        )
    }

    /// A draw with a buffer for so many counts.
    fn draw_into(&mut self, number: u32, room: usize) -> Result<(), Refusal> {
        campaign_draw(
            &self.plan,
            number,
            &mut self.taken,
            &mut self.rounds,
            &mut self.bits,
            &mut self.tally,
            &mut self.counts[..room],
        )
    }

    fn draw(&mut self, number: u32) -> Result<(), Refusal> {
        self.draw_into(number, self.counts.len())
    }
}

#[test]
fn a_start_clears_what_is_needed_and_no_more() {
    let mut campaign = Campaign::of(&table(1, 2, 10, &[3, 4]));
    assert_eq!(campaign.start(), Ok(()));
    assert_eq!((campaign.taken, campaign.rounds), (0, 0));
    assert_eq!(campaign.bits, [0, 0, 0xA5]);
    assert_eq!(campaign.tally, [0, 0, 0xA5A5]);
}

#[test]
fn a_draw_writes_the_same_array_as_the_plain_draw() {
    let mut campaign = Campaign::started(&table(2, 2, 10, &[3, 4, 5, 6]));
    for number in [6, 0, 9, 2] {
        campaign.draw(number).expect("accepted");
        let mut counts = vec![0x5A5A; 5];
        draw(&campaign.plan, number, &mut counts).expect("accepted");
        assert_eq!(campaign.counts, counts);
    }
    assert_eq!((campaign.taken, campaign.rounds), (4, 0));
    assert_eq!(campaign.bits, [0b0100_0101, 0b10, 0xA5]);
    assert_eq!(campaign.tally, [1, 1, 2, 3, 0xA5A5]);
}

#[test]
fn the_last_free_number_completes_the_round_and_frees_all() {
    let mut campaign = Campaign::started(&table(2, 2, 10, &[3, 4, 5, 6]));
    for number in 0..9 {
        campaign.draw(number).expect("accepted");
    }
    assert_eq!((campaign.taken, campaign.rounds), (9, 0));
    assert_eq!(campaign.draw(9), Ok(()));
    assert_eq!(campaign.counts, [1, 0, 0, 1, 0x5A5A]);
    assert_eq!((campaign.taken, campaign.rounds), (0, 1));
    assert_eq!(campaign.bits, [0, 0, 0xA5]);
    assert_eq!(campaign.tally, [3, 4, 5, 6, 0xA5A5]);
}

#[test]
fn a_number_comes_once_in_each_round() {
    let mut campaign = Campaign::started(&table(1, 1, 3, &[2]));
    for number in [2, 0] {
        assert_eq!(campaign.draw(number), Ok(()));
        assert_eq!(campaign.draw(number), Err(Refusal::Taken));
    }
    assert_eq!(campaign.draw(1), Ok(()));
    for number in [1, 0] {
        assert_eq!(campaign.draw(number), Ok(()));
        assert_eq!(campaign.draw(number), Err(Refusal::Taken));
    }
    assert_eq!((campaign.taken, campaign.rounds), (2, 1));
    assert_eq!(campaign.tally, [3, 0xA5A5]);
}

/// What the answers of a campaign and the arrays that it wrote tell, round by round.
struct Followed<'t> {
    table: &'t Table,
    rounds: u16,
    /// The numbers used in this round.
    used: BTreeSet<u32>,
    /// What was drawn in this round, and in all.
    in_round: Vec<u64>,
    in_all: Vec<u64>,
}

impl<'t> Followed<'t> {
    fn new(table: &'t Table) -> Followed<'t> {
        Followed {
            table,
            rounds: 0,
            used: BTreeSet::new(),
            in_round: vec![0; table.size()],
            in_all: vec![0; table.size()],
        }
    }

    /// The answer that is due to a draw.
    fn due(&self, number: u32, room: usize) -> Result<(), Refusal> {
        if room < self.table.size() {
            Err(Refusal::ShortBuffer)
        } else if u64::from(number) >= self.table.denominator {
            Err(Refusal::DrawNumber)
        } else if self.rounds == 1000 {
            Err(Refusal::Rounds)
        } else if self.used.contains(&number) {
            Err(Refusal::Taken)
        } else {
            Ok(())
        }
    }

    /// Follows an accepted draw. A round that it completes has drawn the table.
    fn accept(&mut self, number: u32, counts: &[u16]) {
        self.used.insert(number);
        for (cell, &count) in counts[..self.table.size()].iter().enumerate() {
            self.in_round[cell] += u64::from(count);
            self.in_all[cell] += u64::from(count);
        }
        if self.used.len() as u64 == self.table.denominator {
            assert_eq!(self.in_round, self.table.cells);
            self.rounds += 1;
            self.used.clear();
            self.in_round.fill(0);
        }
    }

    /// The record is what was followed, the bounds hold inside the round, and what was
    /// drawn in all makes up one table more than there are rounds with what the unused
    /// numbers hold.
    fn assert_held(&self, campaign: &Campaign) {
        let (size, denominator) = (self.table.size(), self.table.denominator);
        let m = self.used.len() as u64;
        assert_eq!(campaign.rounds, self.rounds);
        assert_eq!(u64::from(campaign.taken), m);
        for number in 0..8 * bytes_of_bits(denominator) as u32 {
            let set = campaign.bits[number as usize / 8] >> (number % 8) & 1 == 1;
            assert_eq!(set, self.used.contains(&number));
        }
        assert_eq!(campaign.tally[..size], self.in_all);
        let entries_of = |cells: &[u64]| entries(self.table.rows, self.table.columns, cells);
        let of_table = entries_of(&self.table.cells);
        for (entry, drawn) in of_table.iter().zip(entries_of(&self.in_round)) {
            let (down, up) = (entry / denominator, entry.div_ceil(denominator));
            assert!((m * down..=m * up).contains(&drawn));
        }
        let mut sums = self.in_all.clone();
        for number in (0..denominator as u32).filter(|number| !self.used.contains(number)) {
            let mut counts = vec![0; size];
            draw(&campaign.plan, number, &mut counts).expect("accepted");
            for (sum, count) in sums.iter_mut().zip(counts) {
                *sum += u64::from(count);
            }
        }
        let tables = u64::from(self.rounds) + 1;
        let cells = self.table.cells.iter();
        assert_eq!(sums, cells.map(|cell| tables * cell).collect::<Vec<u64>>());
        assert_eq!(campaign.bits.last(), Some(&0xA5));
        assert_eq!(campaign.tally.last(), Some(&0xA5A5));
        assert_eq!(campaign.counts.last(), Some(&0x5A5A));
    }
}

/// Draws until so many rounds are complete, with numbers that are taken, numbers that are
/// too large and buffers that are too short in between.
fn assert_rounds_are_held(generator: &mut Generator, table: &Table, rounds: u16) {
    let mut campaign = Campaign::started(table);
    let mut followed = Followed::new(table);
    while followed.rounds < rounds {
        let number = generator.below(table.denominator + 1) as u32;
        let room = table.size() + 1 - generator.below(3) as usize;
        let before = campaign.clone();
        let answer = campaign.draw_into(number, room);
        assert_eq!(answer, followed.due(number, room));
        if answer.is_ok() {
            followed.accept(number, &campaign.counts);
        } else {
            assert_eq!(campaign, before);
        }
        followed.assert_held(&campaign);
    }
}

#[test]
fn what_a_campaign_is_held_to_applies_inside_each_round() {
    let mut generator = Generator::new(51);
    let mut campaigns = 0;
    while campaigns < 60 {
        let given = random_table(&mut generator, 4);
        if given.denominator <= 30 {
            assert_rounds_are_held(&mut generator, &accepted(&given), 3);
            campaigns += 1;
        }
    }
}

#[test]
fn a_campaign_has_a_thousand_rounds() {
    let table = table(1, 2, 2, &[1, 2000]);
    let mut campaign = Campaign::started(&table);
    let mut followed = Followed::new(&table);
    for round in 0..1000 {
        assert_eq!(campaign.rounds, round);
        for number in [round as u32 % 2, 1 - round as u32 % 2] {
            assert_eq!(campaign.draw(number), Ok(()));
            followed.accept(number, &campaign.counts);
        }
    }
    assert_eq!((campaign.taken, campaign.rounds), (0, ROUNDS));
    assert_eq!(campaign.tally, [1_000, 2_000_000, 0xA5A5]);
    let last = campaign.clone();
    for (number, room) in [(0, 3), (1, 2), (0, 1), (2, 3), (2, 0)] {
        assert_eq!(campaign.draw_into(number, room), followed.due(number, room));
        followed.assert_held(&campaign);
    }
    assert_eq!(campaign, last);
    assert_eq!(campaign.draw(0), Err(Refusal::Rounds));
}

#[test]
fn a_tally_has_64_bits() {
    // the last number of the thousandth round of a cell of 1000 times 65,535
    let table = table(1, 1, 65_535, &[65_535_000]);
    let mut campaign = Campaign::started(&table);
    campaign.bits[..8192].fill(0xFF);
    campaign.bits[8191] = 0x7F;
    campaign.bits[0] = 0xFE;
    (campaign.taken, campaign.rounds) = (65_534, 999);
    campaign.tally[0] = 65_534_999_000;
    assert_eq!(campaign.draw(0), Ok(()));
    assert_eq!((campaign.taken, campaign.rounds), (0, 1000));
    assert_eq!(campaign.tally, [65_535_000_000, 0xA5A5]);
    assert!(campaign.bits[..8192].iter().all(|&byte| byte == 0));
}
