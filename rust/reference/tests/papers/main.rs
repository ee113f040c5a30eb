//! The reference against the papers: their examples, their definitions by brute
//! force over all arrays of small tables, their refusals, and the tables of literal
//! cases.

mod brute_force;
mod campaigns;
mod corrections;
mod examples;
mod literal;
mod reasons;
mod refusals;
mod samples;
mod stored_plans;
mod text;
mod variances;
mod walks;
