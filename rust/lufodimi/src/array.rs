use crate::Plan;
use alloc::vec::Vec;
use core::iter::FusedIterator;
use core::ops::Range;

/// An array of a plan: what one draw gives, and how many draw numbers give it.
///
/// [`Plan::array`](crate::Plan::array) tells one, and
/// [`Plan::arrays`](crate::Plan::arrays) all of a plan.
///
/// ```
/// use lufodimi::{Array, Plan, Table};
///
/// let plan = Plan::of(&Table::new(1, 2, 4, [4, 6])?);
/// let first = Array { weight: 2, counts: vec![1, 1] };
/// let second = Array { weight: 2, counts: vec![1, 2] };
/// assert!(plan.arrays().eq([first, second]));
/// # Ok::<(), lufodimi::Refusal>(())
/// ```
#[derive(Clone, Debug, PartialEq, Eq, Hash)]
pub struct Array {
    /// How many of the draw numbers belong to the array.
    pub weight: u32,
    /// The counts, in row order.
    pub counts: Vec<u16>,
}

/// The arrays of a plan, in order.
///
/// ```
/// use lufodimi::{Plan, Table};
///
/// let plan = Plan::of(&Table::new(2, 2, 10, [3, 4, 5, 6])?);
/// let mut arrays = plan.arrays();
/// assert_eq!(arrays.len(), 4);
/// assert_eq!(arrays.next().map(|array| array.weight), Some(2));
/// assert_eq!(arrays.next_back().map(|array| array.weight), Some(3));
/// assert_eq!(arrays.len(), 2);
/// # Ok::<(), lufodimi::Refusal>(())
/// ```
#[derive(Clone, Debug)]
#[must_use = "iterators are lazy"]
pub struct Arrays<'p> {
    plan: &'p Plan,
    /// Those still to come, counted from 1.
    numbers: Range<u32>,
}

impl<'p> Arrays<'p> {
    /// All of a plan.
    pub(crate) fn of(plan: &'p Plan) -> Arrays<'p> {
        Arrays {
            plan,
            numbers: 1..plan.array_count() + 1,
        }
    }

    /// An array that the plan has.
    fn read(&self, number: u32) -> Array {
        // The plan opened and has the array: that no refusal applies then is proved of the
        // library.
        self.plan.array(number).expect("the plan has the array")
    }
}

impl Iterator for Arrays<'_> {
    type Item = Array;

    fn next(&mut self) -> Option<Array> {
        let number = self.numbers.next()?;
        Some(self.read(number))
    }

    fn nth(&mut self, skipped: usize) -> Option<Array> {
        let number = self.numbers.nth(skipped)?;
        Some(self.read(number))
    }

    fn size_hint(&self) -> (usize, Option<usize>) {
        self.numbers.size_hint()
    }

    fn count(self) -> usize {
        self.len()
    }
}

impl DoubleEndedIterator for Arrays<'_> {
    fn next_back(&mut self) -> Option<Array> {
        let number = self.numbers.next_back()?;
        Some(self.read(number))
    }
}

impl ExactSizeIterator for Arrays<'_> {}

impl FusedIterator for Arrays<'_> {}
