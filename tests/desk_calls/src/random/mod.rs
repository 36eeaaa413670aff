//! Desks from fixed seeds: sound ones in `desks`, and in `damage` every way to
//! make a desk into something that is none; records without text in `jobs`, and inputs
//! cut into pieces in `pieces`. The plans in them and the source of
//! chance are those of the comparison of plans.

pub mod damage;
pub mod desks;
pub mod jobs;
pub mod pieces;

pub use sessions::Rng;
