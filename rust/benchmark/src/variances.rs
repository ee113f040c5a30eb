use benchmark::timing::{Times, PASSES};

/// Finds the variances of all plans with the library and with the straightforward program
/// by turns, and prints both times. The numerators must be the same.
pub fn measure(plans: &[Vec<u8>]) {
    let mut library_times = Times::of(plans.len());
    let mut straightforward_times = Times::of(plans.len());
    for _ in 0..PASSES {
        for (item, plan) in plans.iter().enumerate() {
            let mut numerators = [0; 3];
            let answer =
                library_times.measure(item, || lufodimi_sys::variances(plan, &mut numerators));
            assert_eq!(answer, 0, "a plan does not open");
            let found = straightforward_times.measure(item, || straightforward::variances(plan));
            assert_eq!(numerators, found, "the numerators differ");
        }
    }
    let (library, straightforward) = (library_times.mean(), straightforward_times.mean());
    println!("variances, library: {library:.1} microseconds a plan");
    println!("variances, straightforward program: {straightforward:.1} microseconds a plan");
    println!("variances, ratio: {:.3}", library / straightforward);
}
