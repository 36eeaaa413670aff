//! The proved library through its C interface: the declarations of the static
//! library, and a safe wrapper of each call. Plans go in and out by value;
//! codes and buffers are lent as a pointer and a length.

use crate::calls::Calls;
use crate::values::{Compared, Kept, Made, Matched, Plan, Routed, Verdict, Written};

#[link(name = "plans_c", kind = "static")]
extern "C" {
    fn plans_verdict(draft: Plan) -> Verdict;
    fn plans_keep(draft: Plan) -> Kept;
    fn plans_is_plan(p: Plan) -> bool;
    fn plans_follow(a: Plan, b: Plan) -> Made;
    fn plans_inverse(a: Plan) -> Made;
    fn plans_power(a: Plan, k: i32) -> Made;
    fn plans_same(a: Plan, b: Plan) -> Compared;
    fn plans_unmatched(p: Plan, code: *const u8, code_length: usize) -> Matched;
    fn plans_route(
        p: Plan,
        code: *const u8,
        code_length: usize,
        out: *mut u8,
        out_length: usize,
    ) -> Routed;
    fn plans_list(p: Plan, slot: u8, out: *mut u8, out_length: usize) -> Written;
}

/// The proved library.
pub struct Library;

/// The calls without a lent buffer are safe because they take values alone and
/// ask nothing of them. In the others each pointer and length are those of a
/// slice that lives as long as the call; that of an empty slice is never null.
impl Calls for Library {
    fn verdict(&self, draft: &Plan) -> Verdict {
        // SAFETY: a value alone.
        unsafe { plans_verdict(*draft) }
    }

    fn keep(&self, draft: &Plan) -> Kept {
        // SAFETY: a value alone.
        unsafe { plans_keep(*draft) }
    }

    fn is_plan(&self, value: &Plan) -> bool {
        // SAFETY: a value alone.
        unsafe { plans_is_plan(*value) }
    }

    fn follow(&self, first: &Plan, second: &Plan) -> Made {
        // SAFETY: values alone.
        unsafe { plans_follow(*first, *second) }
    }

    fn inverse(&self, plan: &Plan) -> Made {
        // SAFETY: a value alone.
        unsafe { plans_inverse(*plan) }
    }

    fn power(&self, plan: &Plan, k: i32) -> Made {
        // SAFETY: values alone.
        unsafe { plans_power(*plan, k) }
    }

    fn same(&self, first: &Plan, second: &Plan) -> Compared {
        // SAFETY: values alone.
        unsafe { plans_same(*first, *second) }
    }

    fn unmatched(&self, plan: &Plan, code: &[u8]) -> Matched {
        // SAFETY: the code is a live slice that the call only reads.
        unsafe { plans_unmatched(*plan, code.as_ptr(), code.len()) }
    }

    fn route(&self, plan: &Plan, code: &[u8], out: &mut [u8]) -> Routed {
        let (read, write) = (code.as_ptr(), out.as_mut_ptr());
        // SAFETY: two live slices; the one that is written is lent to us alone.
        unsafe { plans_route(*plan, read, code.len(), write, out.len()) }
    }

    fn list(&self, plan: &Plan, slot: u8, out: &mut [u8]) -> Written {
        // SAFETY: a live slice that is lent to us alone.
        unsafe { plans_list(*plan, slot, out.as_mut_ptr(), out.len()) }
    }
}
