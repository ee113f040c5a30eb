//! The calls of the static library for controlled selection.
//!
//! The functions named `lufodimi_` are the C calls as `include/lufodimi.h` declares them.
//! Beside each stands a safe function that lends slices with their lengths and hands on
//! what the call returns: 0, of planning the plan's length, at the end of a walk 255, or the
//! number of the first refusal that applies. Each call lists its refusals in the order in
//! which they are tested. A refusal changes no buffer. The crate `lufodimi` makes types of
//! all this.
//!
//! Make the library once with `scripts/library` in the repository. The variable
//! `LUFODIMI_LIB_DIR` names another folder than the repository's own `target/lib`.
//!
//! ```
//! let (cells, mut counts) = ([1, 1, 1, 1], [0; 4]);
//! assert_eq!(lufodimi_sys::round(2, 2, 2, &cells, &mut counts), 0);
//! assert_eq!(counts, [0, 1, 1, 0]);
//!
//! // SAFETY: every pointer comes with the length of its array.
//! let answer = unsafe {
//!     lufodimi_sys::lufodimi_round(2, 2, 0, cells.as_ptr(), 4, counts.as_mut_ptr(), 4)
//! };
//! assert_eq!(answer, 2);
//! ```
//!
//! # Safety
//!
//! Of a C call: each pointer is that of as many elements as the length after it says, and
//! is never null, not even with length 0. What a call writes does not overlap anything
//! else that it is lent, and nobody else writes to what it is lent meanwhile. No call
//! keeps a pointer. Contents may be any.

#![no_std]
#![deny(missing_docs)]

mod campaign;
mod draw;
mod open;
mod parts;
mod plan;
mod pool;
mod reason;
mod round;
mod round_signed;
mod variances;
mod walk;

pub use campaign::{campaign_draw, lufodimi_campaign_draw, lufodimi_record, lufodimi_start, start};
pub use draw::{draw, lufodimi_draw};
pub use open::{lufodimi_open, open};
pub use parts::{array, cells, lufodimi_array, lufodimi_cells, lufodimi_sizes, sizes};
pub use plan::{lufodimi_plan, plan, LUFODIMI_LONGEST_PLAN};
pub use pool::{lufodimi_pool, pool};
pub use reason::{
    lufodimi_reason, reason, LUFODIMI_ALL_WHOLE, LUFODIMI_CELL, LUFODIMI_COLUMN_TOTAL,
    LUFODIMI_DOWN, LUFODIMI_GRAND_TOTAL, LUFODIMI_ROW_TOTAL, LUFODIMI_UP,
};
pub use round::{lufodimi_round, round};
pub use round_signed::{lufodimi_round_signed, round_signed};
pub use variances::{lufodimi_variances, variances};
pub use walk::{lufodimi_walk_first, lufodimi_walk_next, walk_first, walk_next, LUFODIMI_LAST};
