//! What the comparisons of the calls share.

pub mod buffer;
pub mod cases;
pub mod damage;
pub mod lent_tables;
pub mod pairs;
pub mod plans;
pub mod records;
pub mod request;
