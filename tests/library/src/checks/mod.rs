//! The checks: each compares some calls with the second implementation on many
//! inputs, and fails too if a kind of answer never came up. They take any offer
//! of the calls, so that a version written for speed is held to the same.

pub mod buffers;
pub mod bytes;
pub mod drafts;
pub mod every_table;
pub mod laws;
pub mod listings;
pub mod paper;
pub mod places;
pub mod powers;
pub mod products;
pub mod routes;
pub mod tables;
pub mod tally;
