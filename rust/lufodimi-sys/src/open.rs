extern "C" {
    /// Opens a stored plan, whoever made it. It opens if form, zero field, sizes, offsets
    /// and length are right, else 5; and if each cell is at most 1000 times the
    /// denominator, each weight is at least 1, the weights add up to the denominator, each
    /// array's cells, row totals, column totals and grand total are the table's over the
    /// denominator, rounded down or up, and the weighted arrays add up to the table, else
    /// 6. It writes nothing. Refusals 5, 6.
    ///
    /// # Safety
    ///
    /// As the crate says.
    pub fn lufodimi_open(plan: *const u8, plan_length: usize) -> u32;
}

/// Opens a stored plan. Returns 0 or the refusal.
///
/// ```
/// assert_eq!(lufodimi_sys::open(&[]), 5);
/// ```
pub fn open(plan: &[u8]) -> u32 {
    // SAFETY: the pointer comes with the length of its slice.
    unsafe { lufodimi_open(plan.as_ptr(), plan.len()) }
}
