/// The part of a campaign record that is no buffer.
#[allow(non_camel_case_types)]
#[repr(C)]
#[derive(Clone, Copy, Debug, Default, PartialEq, Eq, Hash)]
pub struct lufodimi_record {
    /// How many numbers are taken in this round.
    pub taken: u32,
    /// How many rounds are completed.
    pub rounds: u16,
}

extern "C" {
    /// Starts a campaign: sets the count, the rounds, (denominator + 7) / 8 bytes of bits
    /// and rows times columns numbers of the tally to zero. Refusals 5, 6, 7.
    ///
    /// # Safety
    ///
    /// As the crate says.
    pub fn lufodimi_start(
        plan: *const u8,
        plan_length: usize,
        record: *mut lufodimi_record,
        bits: *mut u8,
        bits_length: usize,
        tally: *mut u64,
        tally_length: usize,
    ) -> u32;

    /// Takes a number: writes its array, adds it to the tally, sets its bit and counts
    /// it. The last free number completes the round: one is added to the rounds, and the
    /// count and all bits become zero. Refusals 5, 6, 7, 8, 9, 13, 10.
    ///
    /// # Safety
    ///
    /// As the crate says.
    pub fn lufodimi_campaign_draw(
        plan: *const u8,
        plan_length: usize,
        number: u32,
        record: *mut lufodimi_record,
        bits: *mut u8,
        bits_length: usize,
        tally: *mut u64,
        tally_length: usize,
        counts: *mut u16,
        counts_length: usize,
    ) -> u32;
}

/// Sets the record to zero. Returns 0 or the refusal.
///
/// ```
/// use lufodimi_sys::lufodimi_record;
///
/// let mut plan = [0; 30];
/// assert_eq!(lufodimi_sys::plan(1, 1, 7, &[14], &mut plan), 30);
/// let mut record = lufodimi_record { taken: 9, rounds: 9 };
/// let (mut bits, mut tally) = ([9], [9]);
/// let answer = lufodimi_sys::start(&plan, &mut record, &mut bits, &mut tally);
/// assert_eq!((answer, record), (0, lufodimi_record::default()));
/// assert_eq!((bits, tally), ([0], [0]));
/// ```
pub fn start(plan: &[u8], record: &mut lufodimi_record, bits: &mut [u8], tally: &mut [u64]) -> u32 {
    // SAFETY: the record is lent alone, and every other pointer comes with its length.
    unsafe {
        lufodimi_start(
            plan.as_ptr(),
            plan.len(),
            record,
            bits.as_mut_ptr(),
            bits.len(),
            tally.as_mut_ptr(),
            tally.len(),
        )
    }
}

/// Takes the draw number and writes its array. Returns 0 or the refusal.
///
/// ```
/// use lufodimi_sys::lufodimi_record;
///
/// let mut plan = [0; 30];
/// assert_eq!(lufodimi_sys::plan(1, 1, 7, &[14], &mut plan), 30);
/// let (mut record, mut bits) = (lufodimi_record::default(), [0]);
/// let (mut tally, mut counts) = ([0], [0]);
/// let mut draw = |number| {
///     lufodimi_sys::campaign_draw(
///         &plan, number, &mut record, &mut bits, &mut tally, &mut counts,
///     )
/// };
/// assert_eq!([draw(3), draw(3), draw(7)], [0, 10, 8]);
/// assert_eq!((record, bits), (lufodimi_record { taken: 1, rounds: 0 }, [8]));
/// assert_eq!((tally, counts), ([2], [2]));
/// ```
///
/// The last free number completes the round, and the next one begins:
///
/// ```
/// use lufodimi_sys::lufodimi_record;
///
/// let mut plan = [0; 64];
/// assert_eq!(lufodimi_sys::plan(2, 2, 2, &[1, 1, 1, 1], &mut plan), 64);
/// let (mut record, mut bits) = (lufodimi_record::default(), [0]);
/// let (mut tally, mut counts) = ([0; 4], [0; 4]);
/// let mut draw = |number| {
///     lufodimi_sys::campaign_draw(
///         &plan, number, &mut record, &mut bits, &mut tally, &mut counts,
///     )
/// };
/// assert_eq!([draw(1), draw(1), draw(0)], [0, 10, 0]);
/// assert_eq!((record, bits), (lufodimi_record { taken: 0, rounds: 1 }, [0]));
/// assert_eq!((tally, counts), ([1, 1, 1, 1], [0, 1, 1, 0]));
/// ```
pub fn campaign_draw(
    plan: &[u8],
    number: u32,
    record: &mut lufodimi_record,
    bits: &mut [u8],
    tally: &mut [u64],
    counts: &mut [u16],
) -> u32 {
    // SAFETY: the record is lent alone, and every other pointer comes with its length.
    unsafe {
        lufodimi_campaign_draw(
            plan.as_ptr(),
            plan.len(),
            number,
            record,
            bits.as_mut_ptr(),
            bits.len(),
            tally.as_mut_ptr(),
            tally.len(),
            counts.as_mut_ptr(),
            counts.len(),
        )
    }
}
