//! The library of plans compared with the second implementation. `values` and
//! `bindings` are the C interface, `second` answers the same calls by the reference,
//! `random` makes inputs, and `checks` compares any offer of the calls with the
//! second implementation; `tests/` runs the checks on the proved library. For the
//! bytes of codes, `table` says what each is, a `split_path` shows what it was read
//! as, and `misread` has copies of the second implementation that read one wrongly.
//! For the pairs of listings, `listed` has what E10 says of them, and `misjoined`
//! copies that join wrongly; `misplaced` has copies that tell wrong places.

pub mod bindings;
pub mod calls;
pub mod checks;
pub mod listed;
pub mod misjoined;
pub mod misplaced;
pub mod misread;
pub mod packed;
pub mod random;
pub mod second;
pub mod split_path;
pub mod table;
pub mod values;

pub use bindings::Library;
pub use calls::Calls;
pub use second::Second;
pub use values::{Compared, Kept, Made, Matched, Plan, Routed, Verdict, Written, PLACES};
