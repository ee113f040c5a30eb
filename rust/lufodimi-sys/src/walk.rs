/// What [`lufodimi_walk_next`] returns where the array that it is lent is the last.
pub const LUFODIMI_LAST: u32 = 255;

extern "C" {
    /// Writes the first controlled rounding of a table of up to four by four: rows times
    /// columns counts, in row order. Refusals 1, 15, 2, 3, 4, 7.
    ///
    /// # Safety
    ///
    /// As the crate says.
    pub fn lufodimi_walk_first(
        rows: u32,
        columns: u32,
        denominator: u32,
        cells: *const u32,
        cells_length: usize,
        counts: *mut u16,
        counts_length: usize,
    ) -> u32;

    /// Writes the controlled rounding after the array, which is one, and returns 0; or
    /// returns [`LUFODIMI_LAST`] and writes nothing. Refusals 1, 15, 2, 3, 4, 16, 7, and 7
    /// at the last array too.
    ///
    /// # Safety
    ///
    /// As the crate says.
    pub fn lufodimi_walk_next(
        rows: u32,
        columns: u32,
        denominator: u32,
        cells: *const u32,
        cells_length: usize,
        array: *const u16,
        array_length: usize,
        counts: *mut u16,
        counts_length: usize,
    ) -> u32;
}

/// Writes the first controlled rounding of a table of up to four by four. Returns 0 or the
/// refusal.
///
/// ```
/// let mut counts = [0; 4];
/// assert_eq!(lufodimi_sys::walk_first(2, 2, 2, &[1, 1, 1, 1], &mut counts), 0);
/// assert_eq!(counts, [0, 1, 1, 0]);
/// assert_eq!(lufodimi_sys::walk_first(5, 1, 1, &[0; 5], &mut [0; 5]), 15);
/// ```
pub fn walk_first(
    rows: u32,
    columns: u32,
    denominator: u32,
    cells: &[u32],
    counts: &mut [u16],
) -> u32 {
    // SAFETY: every pointer comes with the length of its slice.
    unsafe {
        lufodimi_walk_first(
            rows,
            columns,
            denominator,
            cells.as_ptr(),
            cells.len(),
            counts.as_mut_ptr(),
            counts.len(),
        )
    }
}

/// Writes the controlled rounding after the array and returns 0. Returns
/// [`LUFODIMI_LAST`] if there is none, or the refusal.
///
/// ```
/// use lufodimi_sys::{walk_next, LUFODIMI_LAST};
///
/// let (cells, mut counts) = ([1, 1, 1, 1], [0; 4]);
/// assert_eq!(walk_next(2, 2, 2, &cells, &[0, 1, 1, 0], &mut counts), 0);
/// assert_eq!(counts, [1, 0, 0, 1]);
/// assert_eq!(walk_next(2, 2, 2, &cells, &[1, 0, 0, 1], &mut counts), LUFODIMI_LAST);
/// assert_eq!(walk_next(2, 2, 2, &cells, &[1, 1, 1, 1], &mut counts), 16);
/// ```
pub fn walk_next(
    rows: u32,
    columns: u32,
    denominator: u32,
    cells: &[u32],
    array: &[u16],
    counts: &mut [u16],
) -> u32 {
    // SAFETY: every pointer comes with the length of its slice.
    unsafe {
        lufodimi_walk_next(
            rows,
            columns,
            denominator,
            cells.as_ptr(),
            cells.len(),
            array.as_ptr(),
            array.len(),
            counts.as_mut_ptr(),
            counts.len(),
        )
    }
}
