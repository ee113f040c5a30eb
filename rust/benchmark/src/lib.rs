//! What the measurements of the calls share.

pub mod inputs;
pub mod timing;
