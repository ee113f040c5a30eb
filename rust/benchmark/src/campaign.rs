use benchmark::inputs::{DENOMINATOR, SIZE};
use benchmark::timing::{Times, PASSES};
use lufodimi_sys::lufodimi_record;
use tables::Generator;

const SEED: u64 = 14;

/// How many draws a campaign makes.
const DRAWS: usize = 10;

/// The record of a campaign and the buffer for its arrays.
struct Campaign {
    record: lufodimi_record,
    bits: Vec<u8>,
    tally: [u64; SIZE],
    counts: [u16; SIZE],
}

impl Campaign {
    fn start(&mut self, plan: &[u8]) -> u32 {
        lufodimi_sys::start(plan, &mut self.record, &mut self.bits, &mut self.tally)
    }

    fn draw(&mut self, plan: &[u8], number: u32) -> u32 {
        lufodimi_sys::campaign_draw(
            plan,
            number,
            &mut self.record,
            &mut self.bits,
            &mut self.tally,
            &mut self.counts,
        )
    }
}

/// Starts a campaign over every plan, draws some numbers and prints the times of a
/// start and of a draw.
pub fn measure(plans: &[Vec<u8>]) {
    let mut numbers: Vec<u32> = (0..DENOMINATOR).collect();
    Generator::new(SEED).shuffle(&mut numbers);
    let mut campaign = Campaign {
        record: lufodimi_record::default(),
        bits: vec![0; (DENOMINATOR as usize).div_ceil(8)],
        tally: [0; SIZE],
        counts: [0; SIZE],
    };
    let mut starts = Times::of(plans.len());
    let mut draws = Times::of(plans.len() * DRAWS);
    for _ in 0..PASSES {
        for (item, plan) in plans.iter().enumerate() {
            let answer = starts.measure(item, || campaign.start(plan));
            assert_eq!(answer, 0, "a start is refused");
            for (place, &number) in numbers[..DRAWS].iter().enumerate() {
                let answer = draws.measure(item * DRAWS + place, || campaign.draw(plan, number));
                assert_eq!(answer, 0, "a campaign draw is refused");
            }
        }
    }
    println!("campaign start: {:.1} microseconds a call", starts.mean());
    println!("campaign draw: {:.1} microseconds a call", draws.mean());
}
