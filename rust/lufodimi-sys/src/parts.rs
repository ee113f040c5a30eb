extern "C" {
    /// Writes the sizes of a stored plan: rows, columns, arrays and denominator.
    /// Refusals 5, 6, 7.
    ///
    /// # Safety
    ///
    /// As the crate says.
    pub fn lufodimi_sizes(
        plan: *const u8,
        plan_length: usize,
        sizes: *mut u32,
        sizes_length: usize,
    ) -> u32;

    /// Writes the cells of a stored plan's table, in row order. Refusals 5, 6, 7.
    ///
    /// # Safety
    ///
    /// As the crate says.
    pub fn lufodimi_cells(
        plan: *const u8,
        plan_length: usize,
        cells: *mut u32,
        cells_length: usize,
    ) -> u32;

    /// Writes the weight of an array of a stored plan, one number, and its counts, in row
    /// order. Arrays are counted from 1. Refusals 5, 6, 14, 7.
    ///
    /// # Safety
    ///
    /// As the crate says.
    pub fn lufodimi_array(
        plan: *const u8,
        plan_length: usize,
        array: u32,
        weight: *mut u32,
        weight_length: usize,
        counts: *mut u16,
        counts_length: usize,
    ) -> u32;
}

/// Writes rows, columns, arrays and denominator of a plan. Returns 0 or the refusal.
///
/// ```
/// let mut plan = [0; 30];
/// assert_eq!(lufodimi_sys::plan(1, 1, 7, &[14], &mut plan), 30);
/// let mut sizes = [0; 4];
/// assert_eq!(lufodimi_sys::sizes(&plan, &mut sizes), 0);
/// assert_eq!(sizes, [1, 1, 1, 7]);
/// ```
pub fn sizes(plan: &[u8], sizes: &mut [u32]) -> u32 {
    // SAFETY: every pointer comes with the length of its slice.
    unsafe { lufodimi_sizes(plan.as_ptr(), plan.len(), sizes.as_mut_ptr(), sizes.len()) }
}

/// Writes the cells of a plan's table. Returns 0 or the refusal.
///
/// ```
/// let mut plan = [0; 30];
/// assert_eq!(lufodimi_sys::plan(1, 1, 7, &[14], &mut plan), 30);
/// let mut cells = [0];
/// assert_eq!(lufodimi_sys::cells(&plan, &mut cells), 0);
/// assert_eq!(cells, [14]);
/// ```
pub fn cells(plan: &[u8], cells: &mut [u32]) -> u32 {
    // SAFETY: every pointer comes with the length of its slice.
    unsafe { lufodimi_cells(plan.as_ptr(), plan.len(), cells.as_mut_ptr(), cells.len()) }
}

/// Writes weight and counts of an array of a plan, counted from 1. Returns 0 or the
/// refusal.
///
/// ```
/// let mut plan = [0; 40];
/// assert_eq!(lufodimi_sys::plan(1, 1, 3, &[2], &mut plan), 40);
/// let (mut weight, mut counts) = ([0], [0]);
/// assert_eq!(lufodimi_sys::array(&plan, 2, &mut weight, &mut counts), 0);
/// assert_eq!((weight, counts), ([2], [1]));
/// assert_eq!(lufodimi_sys::array(&plan, 3, &mut weight, &mut counts), 14);
/// ```
pub fn array(plan: &[u8], array: u32, weight: &mut [u32], counts: &mut [u16]) -> u32 {
    // SAFETY: every pointer comes with the length of its slice.
    unsafe {
        lufodimi_array(
            plan.as_ptr(),
            plan.len(),
            array,
            weight.as_mut_ptr(),
            weight.len(),
            counts.as_mut_ptr(),
            counts.len(),
        )
    }
}
