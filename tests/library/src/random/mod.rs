//! Random inputs from fixed seeds: bases and plans of every shape, tables beside
//! plans, values that are damaged in one place, and codes that are long enough, too
//! short or wrong. The source of chance is that of the random sessions.

pub mod bases;
pub mod codes;
pub mod damage;
pub mod families;
pub mod plans;
pub mod tables;

pub use sessions::Rng;
