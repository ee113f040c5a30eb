extern "C" {
    /// Writes three numerators over the squared denominator, at the start of the buffer:
    /// the sum of all cell variances of a plan, then the smallest and the largest
    /// covariance of two different cells, which are 0 and 0 if there is one cell. The
    /// covariance of two cells has as its numerator the denominator times the weighted sum
    /// of the products of their counts, minus the product of their table cells. Refusals
    /// 5, 6, 7.
    ///
    /// # Safety
    ///
    /// As the crate says.
    pub fn lufodimi_variances(
        plan: *const u8,
        plan_length: usize,
        numerators: *mut i64,
        numerators_length: usize,
    ) -> u32;
}

/// Writes the sum of all cell variances of a plan, and the smallest and the largest
/// covariance of two different cells, as numerators over the squared denominator. Returns
/// 0 or the refusal.
///
/// ```
/// let mut plan = [0; 96];
/// assert_eq!(lufodimi_sys::plan(2, 2, 10, &[3, 4, 5, 6], &mut plan), 96);
/// let mut numerators = [0; 3];
/// assert_eq!(lufodimi_sys::variances(&plan, &mut numerators), 0);
/// assert_eq!(numerators, [94, -24, 20]);
/// assert_eq!(lufodimi_sys::variances(&plan, &mut numerators[..2]), 7);
/// ```
pub fn variances(plan: &[u8], numerators: &mut [i64]) -> u32 {
    // SAFETY: every pointer comes with the length of its slice.
    unsafe {
        lufodimi_variances(
            plan.as_ptr(),
            plan.len(),
            numerators.as_mut_ptr(),
            numerators.len(),
        )
    }
}
