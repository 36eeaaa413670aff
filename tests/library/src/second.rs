//! The second implementation behind the same calls: values are unpacked, the
//! answer is worked out on strings of digits, and the result is packed again.
//! The order of the refusals that only the library has, 15 first and 14 last,
//! stands here.

use reference::basis::Fault;
use reference::{Image, Match, Refusal, Side};

use crate::calls::Calls;
use crate::packed::{draft, kept, plan_value};
use crate::values::{Compared, Kept, Made, Matched, Plan, Routed, Verdict, Written};

/// "A slot byte outside A to H".
const BAD_SLOT: u8 = 8;
/// "The lent buffer is shorter than the output."
const SHORT_BUFFER: u8 = 14;
/// "A plan or desk handed in isn't one as described above."
const NO_PLAN: u8 = 15;

/// The second implementation.
pub struct Second;

impl Calls for Second {
    fn verdict(&self, value: &Plan) -> Verdict {
        let no_draft = Verdict {
            number: NO_PLAN,
            column: 0,
        };
        draft(value).map_or(no_draft, |(shape, rows)| {
            match reference::Plan::verdict(shape, &rows) {
                Ok(()) => Verdict {
                    number: 0,
                    column: 0,
                },
                Err(fault) => fault_verdict(fault),
            }
        })
    }

    fn keep(&self, value: &Plan) -> Kept {
        let verdict = self.verdict(value);
        match draft(value) {
            Some((shape, rows)) if verdict.number == 0 => {
                let plan = reference::Plan::keep(shape, &rows).expect("accepted");
                Kept::plan(plan_value(&plan))
            }
            _ => Kept::refused(verdict),
        }
    }

    fn is_plan(&self, value: &Plan) -> bool {
        kept(value).is_some()
    }

    fn follow(&self, first: &Plan, second: &Plan) -> Made {
        match (kept(first), kept(second)) {
            (Some(first), Some(second)) => made(first.then(&second)),
            _ => Made::refused(NO_PLAN),
        }
    }

    fn inverse(&self, plan: &Plan) -> Made {
        kept(plan).map_or(Made::refused(NO_PLAN), |plan| made(Ok(plan.inverse())))
    }

    fn power(&self, plan: &Plan, k: i32) -> Made {
        kept(plan).map_or(Made::refused(NO_PLAN), |plan| made(plan.power(k.into())))
    }

    fn same(&self, first: &Plan, second: &Plan) -> Compared {
        let (Some(first), Some(second)) = (kept(first), kept(second)) else {
            return Compared::refused(NO_PLAN);
        };
        match first.same(&second) {
            Ok(alike) => Compared::plans(alike),
            Err(refusal) => Compared::refused(refusal.number()),
        }
    }

    fn unmatched(&self, plan: &Plan, code: &[u8]) -> Matched {
        kept(plan).map_or(Matched::nothing(code.len()), |plan| matched(&plan, code))
    }

    fn route(&self, plan: &Plan, code: &[u8], out: &mut [u8]) -> Routed {
        match kept(plan).map(|plan| plan.route(code)) {
            None => Routed::refused(NO_PLAN),
            Some(Err(refusal)) => Routed::refused(refusal.number()),
            Some(Ok(image)) => write_image(&image, out),
        }
    }

    fn list(&self, plan: &Plan, slot: u8, out: &mut [u8]) -> Written {
        match kept(plan) {
            None => Written::refused(NO_PLAN),
            Some(_) if !(b'A'..=b'H').contains(&slot) => Written::refused(BAD_SLOT),
            Some(plan) => write(&plan.list(slot), out),
        }
    }
}

/// The match of a code by a plan, as the library hands it back.
pub fn matched(plan: &reference::Plan, code: &[u8]) -> Matched {
    let Match { tail, place } = plan.matched(code);
    Matched { tail, place }
}

/// The image with the place of its pair, or 14 with neither.
pub fn write_image(image: &Image, out: &mut [u8]) -> Routed {
    match write(&image.digits, out) {
        Written { number: 0, length } => Routed::image(length, image.place),
        Written { number, .. } => Routed::refused(number),
    }
}

fn fault_verdict(fault: Fault) -> Verdict {
    Verdict {
        number: Refusal::Column(fault).number(),
        column: match fault.side {
            Side::From => b'F',
            Side::To => b'T',
        },
    }
}

fn made(plan: Result<reference::Plan, Refusal>) -> Made {
    match plan {
        Ok(plan) => Made::plan(plan_value(&plan)),
        Err(refusal) => Made::refused(refusal.number()),
    }
}

/// "On success only the bytes of the output change."
pub fn write(bytes: &[u8], out: &mut [u8]) -> Written {
    match out.get_mut(..bytes.len()) {
        None => Written::refused(SHORT_BUFFER),
        Some(room) => {
            room.copy_from_slice(bytes);
            Written::bytes(bytes.len())
        }
    }
}
