//! Copies of the second implementation that tell wrong places, in the match of a code
//! or in its route. The checks of places must tell every one of them from a sound one.

use crate::calls::Calls;
use crate::misread::Call;
use crate::packed::unpack;
use crate::second::Second;
use crate::values::{Compared, Kept, Made, Matched, Plan, Routed, Verdict, Written};

/// What is wrong about places.
#[derive(Clone, Copy, Debug, PartialEq, Eq)]
pub enum Flaw {
    /// Nothing.
    None,
    /// Places are counted from 0.
    FromZero,
    /// Every pair is at place 1.
    AlwaysFirst,
    /// Places are those of the to-words in their order.
    ByToWords,
    /// The last pair is one place further on.
    LastOneMore,
    /// A place of three digits has lost its first.
    TwoDigits,
    /// A place where no from-word begins the code, that of the first from-word which
    /// extends it: 13 of a route.
    Unmatched,
    /// A place where the value is no plan.
    NoPlan,
    /// A place where the code is bad.
    BadCode,
    /// The place of the pair where the buffer is too short for the image.
    ShortBuffer,
    /// The length of the image where the buffer is too short for it.
    LengthLeft,
}

/// Those that show where there is a match.
pub const OF_MATCHES: [Flaw; 5] = [
    Flaw::FromZero,
    Flaw::AlwaysFirst,
    Flaw::ByToWords,
    Flaw::LastOneMore,
    Flaw::TwoDigits,
];

/// Those that show where there is none.
pub const OF_NO_MATCHES: [Flaw; 3] = [Flaw::Unmatched, Flaw::NoPlan, Flaw::BadCode];

/// Those of a short buffer, which a route alone has.
pub const OF_BUFFERS: [Flaw; 2] = [Flaw::ShortBuffer, Flaw::LengthLeft];

/// The second implementation with a flaw in one call.
pub struct Misplaced(pub Call, pub Flaw);

impl Misplaced {
    /// What this call tells for the place of a pair.
    fn place(&self, call: Call, plan: &Plan, place: usize) -> usize {
        if call != self.0 {
            return place;
        }
        match self.1 {
            Flaw::FromZero => place - 1,
            Flaw::AlwaysFirst => 1,
            Flaw::ByToWords => place_by_to_words(plan, place),
            Flaw::LastOneMore if place == plan.pairs => place + 1,
            Flaw::TwoDigits => place % 100,
            _ => place,
        }
    }

    /// What this call tells for the place where it gives a refusal of this number.
    fn no_place(&self, call: Call, number: u8, plan: &Plan, code: &[u8]) -> usize {
        let flawed = match self.1 {
            Flaw::Unmatched => number == 13,
            Flaw::NoPlan => number == 15,
            Flaw::BadCode => number == 4,
            Flaw::ShortBuffer => number == 14,
            _ => false,
        };
        match flawed && call == self.0 {
            true => place_of_rows(plan, code),
            false => 0,
        }
    }
}

/// The place of a pair by its to-word, among the to-words in digit order.
fn place_by_to_words(plan: &Plan, place: usize) -> usize {
    let words = plan.to[..plan.pairs].iter().map(|word| unpack(*word));
    let own = unpack(plan.to[place - 1]);
    words.filter(|word| *word <= own).count()
}

/// The place of the first row that the code begins or that begins it, whatever the
/// value is, and 1 where there is none.
fn place_of_rows(plan: &Plan, code: &[u8]) -> usize {
    let mut rows = plan.from.iter().map(|word| unpack(*word));
    let near =
        |from: &Vec<u8>| !from.is_empty() && (from.starts_with(code) || code.starts_with(from));
    1 + rows.position(|from| near(&from)).unwrap_or(0)
}

impl Calls for Misplaced {
    fn verdict(&self, draft: &Plan) -> Verdict {
        Second.verdict(draft)
    }

    fn keep(&self, draft: &Plan) -> Kept {
        Second.keep(draft)
    }

    fn is_plan(&self, value: &Plan) -> bool {
        Second.is_plan(value)
    }

    fn follow(&self, first: &Plan, second: &Plan) -> Made {
        Second.follow(first, second)
    }

    fn inverse(&self, plan: &Plan) -> Made {
        Second.inverse(plan)
    }

    fn power(&self, plan: &Plan, k: i32) -> Made {
        Second.power(plan, k)
    }

    fn same(&self, first: &Plan, second: &Plan) -> Compared {
        Second.same(first, second)
    }

    fn unmatched(&self, plan: &Plan, code: &[u8]) -> Matched {
        let Matched { tail, place } = Second.unmatched(plan, code);
        let place = match place {
            0 => {
                // the refusal that a route would give, with room enough for any image
                let number = Second.route(plan, code, &mut [0; 1100]).number;
                self.no_place(Call::Unmatched, number, plan, code)
            }
            _ => self.place(Call::Unmatched, plan, place),
        };
        Matched { tail, place }
    }

    fn route(&self, plan: &Plan, code: &[u8], out: &mut [u8]) -> Routed {
        let mut routed = Second.route(plan, code, out);
        routed.place = match routed.number {
            0 => self.place(Call::Route, plan, routed.place),
            number => self.no_place(Call::Route, number, plan, code),
        };
        if (self.0, self.1, routed.number) == (Call::Route, Flaw::LengthLeft, 14) {
            routed.length = Second.route(plan, code, &mut [0; 1100]).length;
        }
        routed
    }

    fn list(&self, plan: &Plan, slot: u8, out: &mut [u8]) -> Written {
        Second.list(plan, slot, out)
    }
}
