extern "C" {
    /// Writes the first controlled rounding of a correction sheet, whose cells may be
    /// negative: rows times columns counts, in row order. Refusals 1, 2, 3, 4, 7.
    ///
    /// # Safety
    ///
    /// As the crate says.
    pub fn lufodimi_round_signed(
        rows: u32,
        columns: u32,
        denominator: u32,
        cells: *const i32,
        cells_length: usize,
        counts: *mut i16,
        counts_length: usize,
    ) -> u32;
}

/// Writes the first controlled rounding of a correction sheet. Returns 0 or the refusal.
///
/// ```
/// let mut counts = [0; 2];
/// assert_eq!(lufodimi_sys::round_signed(1, 2, 4, &[-4, -6], &mut counts), 0);
/// assert_eq!(counts, [-1, -2]);
/// ```
pub fn round_signed(
    rows: u32,
    columns: u32,
    denominator: u32,
    cells: &[i32],
    counts: &mut [i16],
) -> u32 {
    // SAFETY: every pointer comes with the length of its slice.
    unsafe {
        lufodimi_round_signed(
            rows,
            columns,
            denominator,
            cells.as_ptr(),
            cells.len(),
            counts.as_mut_ptr(),
            counts.len(),
        )
    }
}
