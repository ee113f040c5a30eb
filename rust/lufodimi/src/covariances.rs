use crate::{Array, Plan};
use alloc::vec::Vec;

/// The covariances of a plan's cells, exactly: numerators over the squared denominator.
///
/// It holds the plan's arrays, which are read once, however many pairs are asked for.
///
/// ```
/// use lufodimi::{Plan, Table};
///
/// let plan = Plan::of(&Table::new(2, 2, 10, [3, 4, 5, 6])?);
/// let covariances = plan.covariances();
/// assert_eq!(covariances.of(1, 2), Some(20)); // they tend to come together
/// assert_eq!(covariances.of(1, 3), Some(-24)); // one tends to replace the other
/// # Ok::<(), lufodimi::Refusal>(())
/// ```
#[derive(Clone, Debug, PartialEq, Eq)]
pub struct Covariances<'p> {
    plan: &'p Plan,
    arrays: Vec<Array>,
}

impl<'p> Covariances<'p> {
    /// Those of a plan.
    pub(crate) fn read(plan: &'p Plan) -> Covariances<'p> {
        Covariances {
            plan,
            arrays: plan.arrays().collect(),
        }
    }

    /// The covariance of two cells, given by their places in row order from 0: the
    /// denominator times the weighted sum of the products of their counts, minus the
    /// product of their table cells. It is negative if one tends to replace the other. Of
    /// a cell with itself it is the variance. There is none if there is no such cell.
    ///
    /// ```
    /// use lufodimi::{Plan, Table};
    ///
    /// let plan = Plan::of(&Table::new(2, 2, 10, [3, 4, 5, 6])?);
    /// assert_eq!(plan.covariances().of(1, 1), Some(24)); // 4 times 10 - 4
    /// assert_eq!(plan.covariances().of(1, 4), None);
    /// # Ok::<(), lufodimi::Refusal>(())
    /// ```
    pub fn of(&self, a: usize, b: usize) -> Option<i64> {
        let cell = |place: usize| self.plan.cells().get(place).copied().map(i64::from);
        let of_table = cell(a)? * cell(b)?;
        let product = |array: &Array| {
            let count = |place: usize| i64::from(array.counts[place]);
            i64::from(array.weight) * count(a) * count(b)
        };
        let sum: i64 = self.arrays.iter().map(product).sum();
        Some(i64::from(self.plan.denominator()) * sum - of_table)
    }
}
