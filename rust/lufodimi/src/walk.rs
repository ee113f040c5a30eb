use crate::refusal::accepted;
use crate::{Refusal, Table};
use alloc::vec;
use alloc::vec::Vec;
use core::iter::FusedIterator;
use lufodimi_sys::LUFODIMI_LAST;

/// Controlled roundings of a table of up to four by four, in their order: all of them, or
/// those after a given one.
///
/// [`Table::roundings`] and [`Table::roundings_after`] give it. The next one is found when
/// the iterator comes to the one before it.
///
/// ```
/// use lufodimi::Table;
///
/// let table = Table::new(2, 2, 2, [1, 1, 1, 1])?;
/// let mut roundings = table.roundings()?;
/// assert_eq!(roundings.next(), Some(vec![0, 1, 1, 0]));
/// assert_eq!(roundings.next(), Some(vec![1, 0, 0, 1]));
/// assert_eq!(roundings.next(), None);
/// # Ok::<(), lufodimi::Refusal>(())
/// ```
#[derive(Clone, Debug)]
#[must_use = "iterators are lazy"]
pub struct Roundings<'t> {
    table: &'t Table,
    /// The one that is to be given out next, if one is left.
    next: Option<Vec<u16>>,
}

impl<'t> Roundings<'t> {
    /// All of a table.
    pub(crate) fn of(table: &'t Table) -> Result<Roundings<'t>, Refusal> {
        let mut first = vec![0; table.cells().len()];
        accepted(lufodimi_sys::walk_first(
            table.rows(),
            table.columns(),
            table.denominator(),
            table.cells(),
            &mut first,
        ))?;
        let next = Some(first);
        Ok(Roundings { table, next })
    }

    /// Those of a table after an array.
    pub(crate) fn after(table: &'t Table, array: &[u16]) -> Result<Roundings<'t>, Refusal> {
        let next = next_of(table, array)?;
        Ok(Roundings { table, next })
    }
}

/// The controlled rounding of a table after an array, unless that is the last.
fn next_of(table: &Table, array: &[u16]) -> Result<Option<Vec<u16>>, Refusal> {
    let mut counts = vec![0; table.cells().len()];
    let answer = lufodimi_sys::walk_next(
        table.rows(),
        table.columns(),
        table.denominator(),
        table.cells(),
        array,
        &mut counts,
    );
    if answer == LUFODIMI_LAST {
        return Ok(None);
    }
    accepted(answer)?;
    Ok(Some(counts))
}

impl Iterator for Roundings<'_> {
    type Item = Vec<u16>;

    fn next(&mut self) -> Option<Vec<u16>> {
        let array = self.next.take()?;
        // The array was written by the library for this table: that no refusal applies then
        // is proved of it.
        self.next = next_of(self.table, &array).expect("the array is a controlled rounding");
        Some(array)
    }

    fn size_hint(&self) -> (usize, Option<usize>) {
        match self.next {
            Some(_) => (1, None),
            None => (0, Some(0)),
        }
    }
}

impl FusedIterator for Roundings<'_> {}
