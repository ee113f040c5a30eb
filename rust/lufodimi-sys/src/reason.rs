/// The first number of a reason: a cell.
pub const LUFODIMI_CELL: u32 = 1;
/// The first number of a reason: a row total.
pub const LUFODIMI_ROW_TOTAL: u32 = 2;
/// The first number of a reason: a column total.
pub const LUFODIMI_COLUMN_TOTAL: u32 = 3;
/// The first number of a reason: the grand total.
pub const LUFODIMI_GRAND_TOTAL: u32 = 4;

/// The last number of a reason: all entries are whole.
pub const LUFODIMI_ALL_WHOLE: u32 = 0;
/// The last number of a reason: the entry was rounded down.
pub const LUFODIMI_DOWN: u32 = 1;
/// The last number of a reason: the entry was rounded up.
pub const LUFODIMI_UP: u32 = 2;

extern "C" {
    /// Writes four numbers about the first entry whose limit is the weight of an array of
    /// a table's plan, counted from 1: kind, row and column from 1, 0 where the kind has
    /// none, and direction. Refusals 1, 2, 3, 4, 14, 7.
    ///
    /// # Safety
    ///
    /// As the crate says.
    pub fn lufodimi_reason(
        rows: u32,
        columns: u32,
        denominator: u32,
        cells: *const u32,
        cells_length: usize,
        array: u32,
        reply: *mut u32,
        reply_length: usize,
    ) -> u32;
}

/// Writes which entry set the weight of an array, counted from 1: kind, row, column and
/// direction. Returns 0 or the refusal.
///
/// ```
/// use lufodimi_sys::{reason, LUFODIMI_COLUMN_TOTAL, LUFODIMI_DOWN};
///
/// let mut reply = [0; 4];
/// assert_eq!(reason(2, 2, 10, &[3, 4, 5, 6], 1, &mut reply), 0);
/// assert_eq!(reply, [LUFODIMI_COLUMN_TOTAL, 0, 1, LUFODIMI_DOWN]);
/// assert_eq!(reason(2, 2, 10, &[3, 4, 5, 6], 5, &mut reply), 14);
/// ```
pub fn reason(
    rows: u32,
    columns: u32,
    denominator: u32,
    cells: &[u32],
    array: u32,
    reply: &mut [u32],
) -> u32 {
    // SAFETY: every pointer comes with the length of its slice.
    unsafe {
        lufodimi_reason(
            rows,
            columns,
            denominator,
            cells.as_ptr(),
            cells.len(),
            array,
            reply.as_mut_ptr(),
            reply.len(),
        )
    }
}
