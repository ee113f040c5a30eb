use benchmark::timing::{Times, PASSES};

/// Opens every plan and prints the time of a call.
pub fn measure(plans: &[Vec<u8>]) {
    let mut times = Times::of(plans.len());
    for _ in 0..PASSES {
        for (item, plan) in plans.iter().enumerate() {
            let answer = times.measure(item, || lufodimi_sys::open(plan));
            assert_eq!(answer, 0, "a plan does not open");
        }
    }
    println!("open: {:.1} microseconds a call", times.mean());
}
