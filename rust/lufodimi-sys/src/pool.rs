extern "C" {
    /// Pools two tables of the same rows and columns: writes the least common multiple of
    /// their denominators, one number, and the pooled cells, rows times columns numbers in
    /// row order. Refusals 1, 2, 3, 4, 11, 12, 7; 2, 3 and 4 apply if they apply to
    /// either table.
    ///
    /// # Safety
    ///
    /// As the crate says.
    pub fn lufodimi_pool(
        rows: u32,
        columns: u32,
        first_denominator: u32,
        first: *const u32,
        first_length: usize,
        second_denominator: u32,
        second: *const u32,
        second_length: usize,
        denominator: *mut u32,
        denominator_length: usize,
        cells: *mut u32,
        cells_length: usize,
    ) -> u32;
}

/// Writes the pooled table's denominator and cells. Returns 0 or the refusal.
///
/// ```
/// let (mut denominator, mut cells) = ([0], [0; 2]);
/// let mut pool = |first: &[u32]| {
///     lufodimi_sys::pool(1, 2, 10, first, 4, &[1, 2], &mut denominator, &mut cells)
/// };
/// assert_eq!([pool(&[3, 4]), pool(&[9998, 4])], [0, 12]);
/// assert_eq!((denominator, cells), ([20], [11, 18]));
/// ```
#[allow(clippy::too_many_arguments)]
pub fn pool(
    rows: u32,
    columns: u32,
    first_denominator: u32,
    first: &[u32],
    second_denominator: u32,
    second: &[u32],
    denominator: &mut [u32],
    cells: &mut [u32],
) -> u32 {
    // SAFETY: every pointer comes with the length of its slice.
    unsafe {
        lufodimi_pool(
            rows,
            columns,
            first_denominator,
            first.as_ptr(),
            first.len(),
            second_denominator,
            second.as_ptr(),
            second.len(),
            denominator.as_mut_ptr(),
            denominator.len(),
            cells.as_mut_ptr(),
            cells.len(),
        )
    }
}
