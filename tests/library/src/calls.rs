//! The calls of the library of plans, as anything that offers them has them:
//! the proved library, the second implementation, or a version written for
//! speed. The checks and the benchmark are written over this trait.

use crate::values::{Compared, Kept, Made, Matched, Plan, Routed, Verdict, Written};

/// Each call answers for every value: a refusal is an answer too.
pub trait Calls {
    /// 15 if the value is no draft, else 6 or 7 with the column, else 0.
    fn verdict(&self, draft: &Plan) -> Verdict;

    /// The verdict, and the reduced plan in order where it is 0.
    fn keep(&self, draft: &Plan) -> Kept;

    /// Whether the value is a kept plan.
    fn is_plan(&self, value: &Plan) -> bool;

    /// *first then second*: 15, 10, 11.
    fn follow(&self, first: &Plan, second: &Plan) -> Made;

    /// The inverse: 15.
    fn inverse(&self, plan: &Plan) -> Made;

    /// The power: 15, 12, 11.
    fn power(&self, plan: &Plan, k: i32) -> Made;

    /// Whether the plans act alike: 15, 10.
    fn same(&self, first: &Plan, second: &Plan) -> Compared;

    /// The length of the unmatched tail of the code and the place of the pair whose
    /// from-word begins it; the whole code's and 0 where none does, or 15 or 4 applies.
    fn unmatched(&self, plan: &Plan, code: &[u8]) -> Matched;

    /// Writes the image of the code and says the place of the pair: 15, 4, 13, 14.
    fn route(&self, plan: &Plan, code: &[u8], out: &mut [u8]) -> Routed;

    /// Writes the plan as P, M and E records: 15, 8, 14.
    fn list(&self, plan: &Plan, slot: u8, out: &mut [u8]) -> Written;
}
