//! What a straightforward program does, for measuring. Planning: alternating paths found
//! with a queue over plain arrays, from scratch in every round. Variances: pair by pair of
//! cells, over all arrays.

// Rows and columns are counted through, as a straightforward program does it; the loops that
// times are measured against stay as they are.
#![allow(clippy::needless_range_loop)]

mod matrix;
mod plan;
mod variances;

pub use plan::plan;
pub use variances::variances;
