use crate::Refusal;
use core::error::Error;
use core::fmt::{self, Debug, Display, Formatter};

/// Why two tables cannot be pooled.
///
/// It displays as a sentence without its end, and `Debug`, which the `?` of `main`
/// prints, adds the number of a refusal.
///
/// ```
/// use lufodimi::{PoolError, Refusal, Table};
///
/// let table = Table::new(1, 1, 2, [1])?;
/// let error = table.pool(&Table::new(1, 2, 2, [1, 1])?).unwrap_err();
/// assert_eq!(error, PoolError::Sizes);
/// assert_eq!(error.to_string(), "the rows or the columns of the two tables differ");
/// let error = table.pool(&Table::new(1, 1, 32_769, [1])?).unwrap_err();
/// assert_eq!(error, PoolError::Refused(Refusal::Multiple));
/// # Ok::<(), Refusal>(())
/// ```
#[derive(Clone, Copy, PartialEq, Eq, Hash)]
#[non_exhaustive]
pub enum PoolError {
    /// Rows or columns are not the same in both tables. It has no number, since the
    /// library is given one size for both tables.
    Sizes,
    /// The library refuses the pool: [`Refusal::Multiple`] or [`Refusal::PooledCell`].
    Refused(Refusal),
}

impl From<Refusal> for PoolError {
    fn from(refusal: Refusal) -> PoolError {
        PoolError::Refused(refusal)
    }
}

impl Display for PoolError {
    fn fmt(&self, formatter: &mut Formatter) -> fmt::Result {
        match self {
            PoolError::Sizes => {
                formatter.write_str("the rows or the columns of the two tables differ")
            }
            PoolError::Refused(refusal) => Display::fmt(refusal, formatter),
        }
    }
}

impl Debug for PoolError {
    fn fmt(&self, formatter: &mut Formatter) -> fmt::Result {
        match self {
            PoolError::Sizes => Display::fmt(self, formatter),
            PoolError::Refused(refusal) => Debug::fmt(refusal, formatter),
        }
    }
}

impl Error for PoolError {}
