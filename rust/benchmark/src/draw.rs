use benchmark::inputs::{DENOMINATOR, SIZE};
use benchmark::timing::{Times, PASSES};
use tables::Generator;

const SEED: u64 = 13;

/// Draws a random number from every plan and prints the time of a call.
pub fn measure(plans: &[Vec<u8>]) {
    let mut generator = Generator::new(SEED);
    let mut counts = [0; SIZE];
    let mut times = Times::of(plans.len());
    for _ in 0..PASSES {
        for (item, plan) in plans.iter().enumerate() {
            let number = generator.below(u64::from(DENOMINATOR)) as u32;
            let answer = times.measure(item, || lufodimi_sys::draw(plan, number, &mut counts));
            assert_eq!(answer, 0, "a draw is refused");
        }
    }
    println!("draw: {:.1} microseconds a call", times.mean());
}
