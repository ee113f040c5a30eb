use crate::Record;
use core::iter::FusedIterator;
use core::ops::Range;

/// The numbers of a campaign that are not taken in this round, in rising order.
///
/// ```
/// use lufodimi::{Campaign, Plan, Table};
///
/// let plan = Plan::of(&Table::new(1, 1, 3, [2])?);
/// let campaign = Campaign::start(&plan);
/// let mut remaining = campaign.remaining();
/// assert_eq!((remaining.len(), remaining.next(), remaining.len()), (3, Some(0), 2));
/// # Ok::<(), lufodimi::Refusal>(())
/// ```
#[derive(Clone, Debug)]
#[must_use = "iterators are lazy"]
pub struct Remaining<'c> {
    record: &'c Record,
    numbers: Range<u32>,
    left: usize,
}

impl<'c> Remaining<'c> {
    /// Those of a record that fits a plan with this denominator.
    pub(super) fn of(record: &'c Record, denominator: u32) -> Remaining<'c> {
        Remaining {
            record,
            numbers: 0..denominator,
            left: (denominator - record.taken()) as usize,
        }
    }
}

impl Iterator for Remaining<'_> {
    type Item = u32;

    fn next(&mut self) -> Option<u32> {
        let record = self.record;
        let number = self.numbers.find(|&number| !record.is_set(number))?;
        self.left -= 1;
        Some(number)
    }

    fn size_hint(&self) -> (usize, Option<usize>) {
        (self.left, Some(self.left))
    }

    fn count(self) -> usize {
        self.left
    }
}

impl DoubleEndedIterator for Remaining<'_> {
    fn next_back(&mut self) -> Option<u32> {
        let record = self.record;
        let number = self.numbers.rfind(|&number| !record.is_set(number))?;
        self.left -= 1;
        Some(number)
    }
}

impl ExactSizeIterator for Remaining<'_> {}

impl FusedIterator for Remaining<'_> {}
