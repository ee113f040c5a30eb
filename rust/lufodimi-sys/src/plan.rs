/// The length of the longest stored plan, in bytes.
pub const LUFODIMI_LONGEST_PLAN: usize = 50_912;

extern "C" {
    /// Writes the stored plan of a table and returns its length, which is 30 or more; a
    /// lower number is a refusal: 1, 2, 3, 4, 7.
    ///
    /// # Safety
    ///
    /// As the crate says.
    pub fn lufodimi_plan(
        rows: u32,
        columns: u32,
        denominator: u32,
        cells: *const u32,
        cells_length: usize,
        plan: *mut u8,
        plan_length: usize,
    ) -> u32;
}

/// Writes the stored plan. Returns its length, 30 or more, or the refusal.
///
/// ```
/// let mut plan = [0; lufodimi_sys::LUFODIMI_LONGEST_PLAN];
/// assert_eq!(lufodimi_sys::plan(1, 1, 1, &[5], &mut plan), 30);
/// assert_eq!(lufodimi_sys::plan(1, 1, 1, &[5], &mut plan[..29]), 7);
/// ```
pub fn plan(rows: u32, columns: u32, denominator: u32, cells: &[u32], plan: &mut [u8]) -> u32 {
    // SAFETY: every pointer comes with the length of its slice.
    unsafe {
        lufodimi_plan(
            rows,
            columns,
            denominator,
            cells.as_ptr(),
            cells.len(),
            plan.as_mut_ptr(),
            plan.len(),
        )
    }
}
