//! Campaigns: over rounds to the end, what remains, refusals, and going on from a record.

use lufodimi::{Campaign, Plan, Record, Refusal, Table};

fn plan() -> Plan {
    Plan::of(&Table::new(2, 2, 10, [3, 4, 5, 6]).expect("accepted"))
}

/// The plan's table so many times, as a tally has it.
fn tables(plan: &Plan, rounds: u16) -> Vec<u64> {
    let cells = plan.cells().iter();
    cells
        .map(|&cell| u64::from(rounds) * u64::from(cell))
        .collect()
}

/// The record after a round and draw 3, stored: the head of 20 bytes, 2 of bits, 32 of the
/// tally.
fn stored(plan: &Plan) -> Vec<u8> {
    let mut campaign = Campaign::start(plan);
    for number in (0..10).chain([3]) {
        campaign.draw(number).expect("free");
    }
    campaign.record().to_bytes()
}

fn resumed<'p>(plan: &'p Plan, stored: &[u8]) -> Result<Campaign<'p>, Refusal> {
    Campaign::resume(plan, Record::from_bytes(stored).expect("a stored record"))
}

#[test]
fn each_round_draws_the_table_in_any_order() {
    let plan = plan();
    let mut campaign = Campaign::start(&plan);
    for round in 0..3 {
        for (draws, number) in [7, 0, 9, 1, 8, 2, 3, 6, 4, 5].into_iter().enumerate() {
            assert!(!campaign.is_taken(number) && !campaign.is_over());
            assert_eq!(campaign.rounds(), round);
            assert_eq!(campaign.taken() as usize, draws);
            assert_eq!(campaign.draw(number), plan.draw(number));
            assert_eq!(campaign.is_taken(number), draws < 9);
        }
        assert_eq!((campaign.rounds(), campaign.taken()), (round + 1, 0));
        assert_eq!(campaign.tally(), tables(&plan, round + 1));
        assert!(campaign.remaining().eq(0..10));
    }
}

#[test]
fn after_a_thousand_rounds_draws_are_refused_by_13() {
    let plan = Plan::of(&Table::new(1, 2, 2, [1, 2000]).expect("accepted"));
    let mut campaign = Campaign::start(&plan);
    for round in 0..1000 {
        assert_eq!((campaign.rounds(), campaign.is_over()), (round, false));
        campaign.draw(1).expect("free");
        campaign.draw(0).expect("free");
    }
    assert_eq!((campaign.rounds(), campaign.is_over()), (1000, true));
    assert_eq!(campaign.tally(), [1000, 2_000_000]);
    let before = campaign.clone();
    assert_eq!(campaign.draw(0), Err(Refusal::Rounds));
    assert_eq!(campaign.draw(1), Err(Refusal::Rounds));
    assert_eq!(campaign.draw(2), Err(Refusal::Number));
    assert_eq!(campaign, before);
    assert!(campaign.remaining().eq([0, 1]));
    let again = resumed(&plan, &campaign.record().to_bytes());
    assert_eq!(again, Ok(campaign));
}

#[test]
fn draws_are_refused_by_8_and_10_and_change_nothing() {
    let plan = plan();
    let mut campaign = Campaign::start(&plan);
    campaign.draw(3).expect("free");
    let before = campaign.clone();
    assert_eq!(campaign.draw(3), Err(Refusal::Taken));
    assert_eq!(campaign.draw(10), Err(Refusal::Number));
    assert_eq!(campaign.draw(u32::MAX), Err(Refusal::Number));
    assert_eq!(campaign, before);
    assert!(!campaign.is_taken(10) && !campaign.is_taken(16) && !campaign.is_taken(u32::MAX));
}

#[test]
fn what_remains_is_what_is_not_taken() {
    let plan = plan();
    let mut campaign = Campaign::start(&plan);
    for number in [0, 9, 4] {
        campaign.draw(number).expect("free");
    }
    let free = [1, 2, 3, 5, 6, 7, 8];
    assert!(campaign.remaining().eq(free));
    assert!(campaign.remaining().rev().eq(free.into_iter().rev()));
    assert_eq!(campaign.remaining().count(), 7);
    let mut remaining = campaign.remaining();
    assert_eq!((remaining.nth(3), remaining.len()), (Some(5), 3));
    assert_eq!((remaining.next_back(), remaining.len()), (Some(8), 2));
    assert!(remaining.by_ref().eq([6, 7]));
    assert_eq!((remaining.next(), remaining.next_back()), (None, None));
    assert_eq!(remaining.len(), 0);
}

#[test]
fn a_campaign_goes_on_from_its_record() {
    let plan = plan();
    let mut stored = Campaign::start(&plan).record().to_bytes();
    for draw in 0..20 {
        let mut campaign = resumed(&plan, &stored).expect("it fits");
        assert_eq!(u32::from(campaign.rounds()), draw / 10);
        assert_eq!((campaign.taken(), campaign.plan()), (draw % 10, &plan));
        campaign.draw(draw % 10).expect("free");
        stored = campaign.into_record().to_bytes();
    }
    let campaign = resumed(&plan, &stored).expect("it fits");
    assert_eq!((campaign.rounds(), campaign.taken()), (2, 0));
    assert_eq!(campaign.tally(), tables(&plan, 2));
}

#[test]
fn a_record_that_does_not_fit_is_refused_by_9() {
    let plan = plan();
    let good = stored(&plan);
    assert!(resumed(&plan, &good).is_ok());
    // the rounds, the count, a number's bit, a spare bit, the tally in its lowest and in
    // its highest bit
    for (place, change) in [
        (6, 1),
        (7, 128),
        (8, 1),
        (20, 1),
        (21, 4),
        (22, 1),
        (53, 128),
    ] {
        let mut changed = good.clone();
        changed[place] ^= change;
        let refused = resumed(&plan, &changed);
        assert_eq!(refused, Err(Refusal::Record), "byte {place}");
    }
}

/// A stored record of the plan with this form, these rounds and this count, two bytes of
/// bits, and a tally.
fn written(form: u8, rounds: u16, taken: u8, bits: [u8; 2], tally: [u64; 4]) -> Vec<u8> {
    let head = [b'L', b'U', b'F', b'R', form, 0];
    let lengths = [taken, 0, 0, 0, 2, 0, 0, 0, 4, 0, 0, 0];
    let width = if form == 1 { 4 } else { 8 };
    let sums = tally.map(|sum| sum.to_le_bytes());
    let sums = sums.iter().flat_map(|bytes| &bytes[..width]).copied();
    let rounds = rounds.to_le_bytes();
    [&head[..], &rounds, &lengths, &bits]
        .concat()
        .into_iter()
        .chain(sums)
        .collect()
}

#[test]
fn rounds_and_taken_numbers_that_no_campaign_has_are_refused_by_9() {
    let plan = plan();
    let thousand = [3000, 4000, 5000, 6000];
    let resumed = |rounds, taken, bits, tally| {
        let campaign = resumed(&plan, &written(2, rounds, taken, bits, tally))?;
        Ok((campaign.rounds(), campaign.taken()))
    };
    assert_eq!(resumed(1000, 0, [0, 0], thousand), Ok((1000, 0)));
    let one_more = [3003, 4004, 5005, 6006];
    assert_eq!(resumed(1001, 0, [0, 0], one_more), Err(Refusal::Record));
    let with_draw_0 = [3000, 4000, 5000, 6001];
    assert_eq!(resumed(1000, 1, [1, 0], with_draw_0), Err(Refusal::Record));
    // all numbers taken, after a round
    assert_eq!(
        resumed(1, 10, [255, 3], [6, 8, 10, 12]),
        Err(Refusal::Record)
    );
    // a tally of 64 bits, off by 2 to the 32nd
    let off = [3, 4, 5 + (1 << 32), 6];
    assert_eq!(resumed(1, 0, [0, 0], [3, 4, 5, 6]), Ok((1, 0)));
    assert_eq!(resumed(1, 0, [0, 0], off), Err(Refusal::Record));
}

#[test]
fn an_old_record_with_some_numbers_taken_has_no_round() {
    let plan = plan();
    let old = written(1, 0, 2, [0b1000, 2], [1, 1, 1, 1]);
    let mut campaign = resumed(&plan, &old).expect("it fits");
    assert_eq!((campaign.rounds(), campaign.taken()), (0, 2));
    assert_eq!(campaign.tally(), [1, 1, 1, 1]);
    assert_eq!(campaign.draw(3), Err(Refusal::Taken));
    assert_eq!(campaign.draw(9), Err(Refusal::Taken));
    let stored = campaign.record().to_bytes();
    assert_eq!(stored, written(2, 0, 2, [0b1000, 2], [1, 1, 1, 1]));
    assert_eq!(resumed(&plan, &stored), Ok(campaign));
}

#[test]
fn an_old_record_with_all_numbers_taken_is_a_completed_round() {
    let plan = plan();
    let old = written(1, 0, 10, [255, 3], [3, 4, 5, 6]);
    // stored again before a campaign goes on with it, it is still the old file
    let again = Record::from_bytes(&old).expect("a stored record");
    assert_eq!(again.to_bytes(), old);
    let mut campaign = resumed(&plan, &old).expect("it fits");
    assert_eq!((campaign.rounds(), campaign.taken()), (1, 0));
    assert_eq!(campaign.tally(), [3, 4, 5, 6]);
    assert!(campaign.remaining().eq(0..10));
    let stored = campaign.record().to_bytes();
    assert_eq!(stored, written(2, 1, 0, [0, 0], [3, 4, 5, 6]));
    assert_eq!(campaign.draw(0), plan.draw(0));
}

#[test]
fn a_record_of_form_2_with_all_numbers_taken_is_refused_by_9() {
    let plan = plan();
    for (rounds, tally) in [(0, [3, 4, 5, 6]), (1, [3, 4, 5, 6]), (1, [6, 8, 10, 12])] {
        let stored = written(2, rounds, 10, [255, 3], tally);
        assert_eq!(resumed(&plan, &stored), Err(Refusal::Record));
    }
}

#[test]
fn an_old_record_with_all_numbers_taken_has_to_fit() {
    let plan = plan();
    for (taken, bits, tally) in [
        // the tally, a spare bit set besides, a spare bit set for a number's, the count
        (10, [255, 3], [3, 4, 5, 7]),
        (10, [255, 3], [6, 8, 10, 12]),
        (10, [255, 7], [3, 4, 5, 6]),
        (11, [255, 7], [3, 4, 5, 6]),
        (10, [255, 5], [3, 4, 5, 6]),
        (9, [255, 3], [3, 4, 5, 6]),
    ] {
        let old = written(1, 0, taken, bits, tally);
        let refused = resumed(&plan, &old);
        assert_eq!(refused, Err(Refusal::Record), "{taken} {bits:?} {tally:?}");
    }
}

#[test]
fn a_record_of_another_length_is_refused_by_9() {
    let plan = plan();
    let table = |rows, columns, denominator, cells: &[u32]| {
        Table::new(rows, columns, denominator, cells).expect("accepted")
    };
    for other in [
        table(2, 2, 7, &[0; 4]),
        table(2, 2, 17, &[0; 4]),
        table(1, 3, 10, &[0; 3]),
        table(1, 5, 10, &[0; 5]),
    ] {
        let other = Plan::of(&other);
        let record = Campaign::start(&other).into_record();
        assert_eq!(Campaign::resume(&plan, record), Err(Refusal::Record));
    }
}
