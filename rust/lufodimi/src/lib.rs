#![doc = include_str!("../README.md")]
#![no_std]
#![forbid(unsafe_code)]
#![deny(missing_docs)]

extern crate alloc;

mod array;
mod campaign;
mod corrections;
mod covariances;
mod plan;
mod reason;
mod record;
mod refusal;
mod rounding;
mod table;
mod variances;
mod walk;

pub use array::{Array, Arrays};
pub use campaign::{Campaign, Remaining};
pub use corrections::Corrections;
pub use covariances::Covariances;
pub use plan::Plan;
pub use reason::{Entry, Reason};
pub use record::{Record, RecordError};
pub use refusal::Refusal;
pub use table::{PoolError, Table};
pub use variances::Variances;
pub use walk::Roundings;
