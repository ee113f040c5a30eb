extern "C" {
    /// Writes the array that belongs to a draw number. Refusals 5, 6, 7, 8.
    ///
    /// # Safety
    ///
    /// As the crate says.
    pub fn lufodimi_draw(
        plan: *const u8,
        plan_length: usize,
        number: u32,
        counts: *mut u16,
        counts_length: usize,
    ) -> u32;
}

/// Writes the array that belongs to the draw number. Returns 0 or the refusal.
///
/// ```
/// let mut plan = [0; 30];
/// assert_eq!(lufodimi_sys::plan(1, 1, 7, &[14], &mut plan), 30);
/// let mut counts = [0];
/// assert_eq!(lufodimi_sys::draw(&plan, 6, &mut counts), 0);
/// assert_eq!(counts, [2]);
/// assert_eq!(lufodimi_sys::draw(&plan, 7, &mut counts), 8);
/// ```
pub fn draw(plan: &[u8], number: u32, counts: &mut [u16]) -> u32 {
    // SAFETY: every pointer comes with the length of its slice.
    unsafe {
        lufodimi_draw(
            plan.as_ptr(),
            plan.len(),
            number,
            counts.as_mut_ptr(),
            counts.len(),
        )
    }
}
