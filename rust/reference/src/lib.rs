//! Controlled selection, written from the papers: plain, slow and without proof.
//! Every call leaves all lent buffers as they were when it refuses.

mod campaign;
mod corrections;
mod flow;
mod parts;
mod plan;
mod pool;
mod ranges;
mod reason;
mod refusal;
mod rounding;
mod search;
mod stored;
mod table;
mod text;
mod variances;
mod walk;

pub use campaign::{bytes_of_bits, campaign_draw, start, ROUNDS};
pub use corrections::{first_signed_rounding, is_signed_rounding, round_signed};
pub use parts::{array, cells, sizes};
pub use plan::{plan, plan_of, Array, Plan};
pub use pool::{least_common_multiple, pool};
pub use reason::{reason, write_reason};
pub use refusal::{number_of, Refusal};
pub use rounding::{first_rounding, is_controlled_rounding, round};
pub use search::{all_by_search, first_by_search};
pub use stored::{draw, encode, open, stored_length};
pub use table::{entries, Table};
pub use text::{print_plan, LONGEST_INPUT};
pub use variances::{covariance, plan_variances, variances, write_variances};
pub use walk::{walk_first, walk_next, Step, Walk};
