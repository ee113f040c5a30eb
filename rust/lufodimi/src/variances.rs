/// How much the cells of a plan vary, exactly: numerators over the squared denominator.
///
/// [`Plan::variances`](crate::Plan::variances) gives them, and
/// [`Plan::covariances`](crate::Plan::covariances) the covariance of any two cells.
///
/// ```
/// use lufodimi::{Plan, Table, Variances};
///
/// let plan = Plan::of(&Table::new(2, 2, 10, [3, 4, 5, 6])?);
/// let expected = Variances {
///     variance_sum: 94,         // 0.94
///     smallest_covariance: -24, // -0.24
///     largest_covariance: 20,   // 0.2
/// };
/// assert_eq!(plan.variances(), expected);
/// # Ok::<(), lufodimi::Refusal>(())
/// ```
#[derive(Clone, Copy, Debug, PartialEq, Eq, Hash)]
pub struct Variances {
    /// The sum of the variances of all cells.
    pub variance_sum: i64,
    /// The smallest covariance of two different cells, or 0 if there is one cell.
    pub smallest_covariance: i64,
    /// The largest covariance of two different cells, or 0 if there is one cell.
    pub largest_covariance: i64,
}
