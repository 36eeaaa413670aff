//! The calls of the desk compared with the second implementation. `values` and
//! `bindings` are the C interface, `second` answers the same calls by the
//! reference, `broken` answers them wrongly with one of `faults`, of which those
//! of digits are in `misread`, those of listings in `mislisted`, those of places in
//! `misplaced` and those of splits in `missplit`, `misnamed` does so with stations,
//! `misgiven` with rights, `misheld` with the pairs held and `misfed` with pieces of
//! input, `random` makes desks, and `checks` compares any offer of the calls with the
//! second implementation. `tests/` runs the checks on the proved desk, and shows that
//! they tell every broken offer from a sound one.

pub mod bindings;
pub mod broken;
pub mod calls;
pub mod checks;
pub mod faults;
pub mod misfed;
pub mod misgiven;
pub mod misheld;
pub mod mislisted;
pub mod misnamed;
pub mod misplaced;
pub mod misread;
pub mod missplit;
pub mod random;
pub mod second;
pub mod values;

pub use bindings::Library;
pub use calls::Calls;
pub use second::Second;
pub use values::{Block, Desk, Done, Fed, Job, Written};
