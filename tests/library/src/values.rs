//! The values of the C interface, laid out as C lays them out: a plan is a fixed
//! table of 128 pairs of packed words, and every answer begins with a number,
//! 0 for a job done and else that of the refusal.

use std::fmt;

/// The places of each column of a plan.
pub const PLACES: usize = 128;

/// A value handed to the library as a draft or as a plan. Any bytes may stand
/// in it; which values are drafts and which are plans is for the calls to say.
#[repr(C)]
#[derive(Clone, Copy, PartialEq, Eq)]
pub struct Plan {
    pub arity: u8,
    pub roots: u8,
    pub pairs: usize,
    pub from: [u64; PLACES],
    pub to: [u64; PLACES],
}

impl Plan {
    /// What stands for a plan in a refusal.
    pub const ZERO: Plan = Plan {
        arity: 0,
        roots: 0,
        pairs: 0,
        from: [0; PLACES],
        to: [0; PLACES],
    };
}

/// The shape, the count and the places that aren't zero: the rest would fill
/// two pages of a failed test.
impl fmt::Debug for Plan {
    fn fmt(&self, f: &mut fmt::Formatter) -> fmt::Result {
        write!(f, "({}, {}) {} pairs:", self.arity, self.roots, self.pairs)?;
        for (place, (from, to)) in self.from.iter().zip(&self.to).enumerate() {
            if (*from, *to) != (0, 0) {
                write!(f, " {place}:{from:x}>{to:x}")?;
            }
        }
        Ok(())
    }
}

/// Number 0, 6, 7 or 15; the column is b'F' or b'T' for 6 and 7, else 0.
#[repr(C)]
#[derive(Clone, Copy, Debug, PartialEq, Eq)]
pub struct Verdict {
    pub number: u8,
    pub column: u8,
}

/// A verdict with the plan kept, or with the zero plan in a refusal.
#[repr(C)]
#[derive(Clone, Copy, Debug, PartialEq, Eq)]
pub struct Kept {
    pub number: u8,
    pub column: u8,
    pub plan: Plan,
}

impl Kept {
    pub fn plan(plan: Plan) -> Kept {
        Kept {
            number: 0,
            column: 0,
            plan,
        }
    }

    pub fn refused(verdict: Verdict) -> Kept {
        Kept {
            number: verdict.number,
            column: verdict.column,
            plan: Plan::ZERO,
        }
    }
}

/// A plan made from others, or the zero plan in a refusal.
#[repr(C)]
#[derive(Clone, Copy, Debug, PartialEq, Eq)]
pub struct Made {
    pub number: u8,
    pub plan: Plan,
}

impl Made {
    pub fn plan(plan: Plan) -> Made {
        Made { number: 0, plan }
    }

    pub fn refused(number: u8) -> Made {
        Made {
            number,
            plan: Plan::ZERO,
        }
    }
}

/// Whether two plans act alike; false in a refusal.
#[repr(C)]
#[derive(Clone, Copy, Debug, PartialEq, Eq)]
pub struct Compared {
    pub number: u8,
    pub alike: bool,
}

impl Compared {
    pub fn plans(alike: bool) -> Compared {
        Compared { number: 0, alike }
    }

    pub fn refused(number: u8) -> Compared {
        Compared {
            number,
            alike: false,
        }
    }
}

/// How many bytes stand at the start of the lent buffer; 0 in a refusal.
#[repr(C)]
#[derive(Clone, Copy, Debug, PartialEq, Eq)]
pub struct Written {
    pub number: u8,
    pub length: usize,
}

impl Written {
    pub fn bytes(length: usize) -> Written {
        Written { number: 0, length }
    }

    pub fn refused(number: u8) -> Written {
        Written { number, length: 0 }
    }
}

/// How many digits of a code are left behind the from-word that begins it, and the
/// place of that pair, counted from 1; the whole length and 0 where none does.
#[repr(C)]
#[derive(Clone, Copy, Debug, PartialEq, Eq)]
pub struct Matched {
    pub tail: usize,
    pub place: usize,
}

impl Matched {
    /// No from-word begins a code of this length, or 15 or 4 applies.
    pub fn nothing(length: usize) -> Matched {
        Matched {
            tail: length,
            place: 0,
        }
    }
}

/// How many digits stand at the start of the lent buffer, and the place of the pair
/// that routed the code; both are 0 in a refusal.
#[repr(C)]
#[derive(Clone, Copy, Debug, PartialEq, Eq)]
pub struct Routed {
    pub number: u8,
    pub length: usize,
    pub place: usize,
}

impl Routed {
    pub fn image(length: usize, place: usize) -> Routed {
        Routed {
            number: 0,
            length,
            place,
        }
    }

    pub fn refused(number: u8) -> Routed {
        Routed {
            number,
            length: 0,
            place: 0,
        }
    }
}
