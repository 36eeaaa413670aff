//! Sessions for the sort plan desk, made from a seed: records on real plans,
//! mixed with records that must be refused. The same seed always gives the
//! same bytes. A tally says which replies came up in an output, so that a
//! range of seeds that misses a refusal can be told from one that does not.

mod mischief;
mod plans;
mod rng;
mod session;
mod tally;

pub use rng::Rng;
pub use session::session;
pub use tally::{tally, Tally, EXERCISES, GRANTS, NAMINGS, PAIRS_HELD, PLACES, RIGHTS, SURVEYS};
