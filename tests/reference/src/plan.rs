//! Kept plans: reduced maps between bases of one shape, held to the limits of
//! document 01 (128 pairs, words of 16 digits). The operations are those of
//! the records E, F, I, K, S, W, L and X, with their refusals.

use crate::basis::{self, Fault};
use crate::exercise;
use crate::maps::{self, Pairs};
use crate::refusal::Refusal;
use crate::words::{Shape, Word, CODE_DIGITS, PAIRS, WORD_DIGITS};

/// The largest size of an exponent.
pub const EXPONENT_LIMIT: i64 = 1000;

/// A kept plan. It can only be made by the operations below, so it always has
/// a shape in range, both columns bases, no join possible and no limit broken.
#[derive(Clone, Debug, PartialEq, Eq)]
pub struct Plan {
    shape: Shape,
    pairs: Pairs,
}

/// A pair and its place in the listing of L, "counted from 1" (E7).
#[derive(Clone, Debug, PartialEq, Eq)]
pub struct Placed {
    pub place: usize,
    pub from: Word,
    pub to: Word,
}

/// The match of a code against the from column: how many digits its tail has, and
/// the place of the pair whose from-word begins it.
#[derive(Clone, Copy, Debug, PartialEq, Eq)]
pub struct Match {
    pub tail: usize,
    pub place: usize,
}

/// The image of a code, and the place of the pair that routed it.
#[derive(Clone, Debug, PartialEq, Eq)]
pub struct Image {
    pub digits: Word,
    pub place: usize,
}

/// Where a plan sends a code, as W tells it.
#[derive(Clone, Debug, PartialEq, Eq)]
pub enum Routed {
    /// The image of a code that a from-word begins.
    Image(Image),
    /// Of any other code the pairs whose from-words extend it, in order: "the
    /// images of its parts".
    Block(Vec<Placed>),
}

impl Plan {
    /// The plan typed as these pairs, reduced: a whole run of P, M and E. The
    /// refusals are 3, then 4 and 5 pair by pair as M gives them, then 6 and 7.
    pub fn keep(shape: Shape, typed: &[(Word, Word)]) -> Result<Plan, Refusal> {
        if !shape.in_range() {
            return Err(Refusal::ShapeRange);
        }
        for (already, (from, to)) in typed.iter().enumerate() {
            may_add_pair(shape, already, from, to)?;
        }
        Plan::verdict(shape, typed).map_err(Refusal::Column)?;
        let pairs = maps::reduce(shape, typed.iter().cloned().collect());
        Ok(Plan { shape, pairs })
    }

    /// The plan of X, reduced: refusal 3, then 17, "then 5 and 4 if the unreduced
    /// plan breaks those limits".
    pub fn exercise(shape: Shape, splits: u8, seed: u64) -> Result<Plan, Refusal> {
        if !shape.in_range() {
            return Err(Refusal::ShapeRange);
        }
        exercise::seed_in_range(seed)?;
        let unreduced = exercise::unreduced(shape, splits, seed);
        if unreduced.len() > PAIRS {
            return Err(Refusal::TooManyPairs);
        }
        let too_long = |word: &Word| word.len() > WORD_DIGITS;
        if unreduced.iter().any(|(f, t)| too_long(f) || too_long(t)) {
            return Err(Refusal::BadWord);
        }
        let pairs = maps::reduce(shape, unreduced.into_iter().collect());
        Ok(Plan { shape, pairs })
    }

    /// The verdict on two typed columns of plan words: sound, or the column
    /// and the reason.
    pub fn verdict(shape: Shape, typed: &[(Word, Word)]) -> Result<(), Fault> {
        basis::verdict(shape, typed)
    }

    /// The plan with exactly these pairs, if there is a kept plan that has
    /// them in this order. Where this is none, a table handed to a library
    /// call "isn't one as described above" (number 15).
    pub fn recognise(shape: Shape, pairs: &[(Word, Word)]) -> Option<Plan> {
        let plan = Plan::keep(shape, pairs).ok()?;
        (plan.pair_list() == pairs).then_some(plan)
    }

    /// "0 is the plan that moves nothing (each belt to itself)".
    pub fn identity(shape: Shape) -> Plan {
        assert!(shape.in_range(), "a plan has a shape in range");
        Plan {
            shape,
            pairs: maps::identity(shape),
        }
    }

    pub fn shape(&self) -> Shape {
        self.shape
    }

    /// The pairs as an ordered map.
    pub fn pairs(&self) -> &Pairs {
        &self.pairs
    }

    /// The pairs in their order, as the M records of L give them.
    pub fn pair_list(&self) -> Vec<(Word, Word)> {
        let listed = self.pairs.iter();
        listed.map(|(f, t)| (f.clone(), t.clone())).collect()
    }

    /// The number of pairs kept.
    pub fn size(&self) -> usize {
        self.pairs.len()
    }

    /// *self then next*: refusals 10 and 11.
    pub fn then(&self, next: &Plan) -> Result<Plan, Refusal> {
        if self.shape != next.shape {
            return Err(Refusal::ShapesDiffer);
        }
        // "Only the reduced result is held to 128 pairs and 15 ways."
        let pairs = maps::reduce(self.shape, maps::then(&self.pairs, &next.pairs));
        if !within_limits(&pairs) {
            return Err(Refusal::ResultLimit);
        }
        Ok(Plan {
            shape: self.shape,
            pairs,
        })
    }

    /// The inverse. A join of the inverse would be a join of the plan, and the
    /// limits are the same for both columns, so there is nothing to refuse.
    pub fn inverse(&self) -> Plan {
        Plan {
            shape: self.shape,
            pairs: maps::inverse(&self.pairs),
        }
    }

    /// "For k above zero, k times in a row; 0 is the plan that moves nothing;
    /// below zero, the power −k of the inverse." Refusal 12, then 11 if "some
    /// reduced power from 1 up to the size of k breaks a limit".
    pub fn power(&self, k: i64) -> Result<Plan, Refusal> {
        exponent_in_range(k)?;
        if k == 0 {
            return Ok(Plan::identity(self.shape));
        }
        let base = if k < 0 { self.inverse() } else { self.clone() };
        let mut power = base.clone();
        for _ in 1..k.abs() {
            power = power.then(&base)?;
        }
        Ok(power)
    }

    /// Whether the two plans act alike: refusal 10.
    pub fn same(&self, other: &Plan) -> Result<bool, Refusal> {
        if self.shape != other.shape {
            return Err(Refusal::ShapesDiffer);
        }
        Ok(maps::act_alike(&self.pairs, &other.pairs))
    }

    /// The library's match of a code. "Where no from-word begins the code, or 15 or
    /// 4 applies, that part is the whole code", and there "the place is 0".
    pub fn matched(&self, code: &[u8]) -> Match {
        let beginning = match self.may_route(code) {
            Ok(()) => self.pair_beginning(code),
            Err(_) => None,
        };
        match beginning {
            Some(Placed { place, from, .. }) => Match {
                tail: code.len() - from.len(),
                place,
            },
            None => Match {
                tail: code.len(),
                place: 0,
            },
        }
    }

    /// The library's route of a single code: refusal 4, then 13 if the code is
    /// too short for the plan.
    pub fn route(&self, code: &[u8]) -> Result<Image, Refusal> {
        self.may_route(code)?;
        self.placed_image(code).ok_or(Refusal::CodeTooShort)
    }

    /// The route of W, which has a block for a code that is too short: refusal
    /// 4 alone.
    pub fn route_or_block(&self, code: &[u8]) -> Result<Routed, Refusal> {
        self.may_route(code)?;
        Ok(match self.placed_image(code) {
            Some(image) => Routed::Image(image),
            None => Routed::Block(self.block(code)),
        })
    }

    /// "4, a word that is empty, too long or has a wrong digit", of a code.
    fn may_route(&self, code: &[u8]) -> Result<(), Refusal> {
        if code.len() > CODE_DIGITS || !self.shape.is_code(code) {
            return Err(Refusal::BadWord);
        }
        Ok(())
    }

    /// "Every pair whose from-word extends the code, in from order".
    pub fn block(&self, code: &[u8]) -> Vec<Placed> {
        let extending = maps::pairs_extending(&self.pairs, code);
        extending.map(|pair| self.placed(pair)).collect()
    }

    /// The image of a code of whatever length; nothing if no from-word begins
    /// it.
    pub fn image(&self, code: &[u8]) -> Option<Word> {
        maps::image(&self.pairs, code)
    }

    /// The same with the place of the pair.
    fn placed_image(&self, code: &[u8]) -> Option<Image> {
        let digits = self.image(code)?;
        let Placed { place, .. } = self.pair_beginning(code)?;
        Some(Image { digits, place })
    }

    /// The pair whose from-word begins a code of whatever length.
    fn pair_beginning(&self, code: &[u8]) -> Option<Placed> {
        let pair = maps::pair_beginning(&self.pairs, code)?;
        Some(self.placed(pair))
    }

    /// A pair of this plan with "the place of the pair in the listing".
    fn placed(&self, (from, to): (&Word, &Word)) -> Placed {
        Placed {
            place: maps::place(&self.pairs, from),
            from: from.clone(),
            to: to.clone(),
        }
    }

    /// The listing of L: the plan as P, M and E records for this slot.
    pub fn list(&self, slot: u8) -> Vec<u8> {
        let Shape { arity, roots } = self.shape;
        let mut lines = vec![b'P', b'\t', slot];
        lines.extend(format!("\t{arity}\t{roots}\n").bytes());
        for (from, to) in &self.pairs {
            lines.extend([b"M\t", from.as_slice(), b"\t", to, b"\n"].concat());
        }
        lines.extend(b"E\n");
        lines
    }
}

/// Whether M may add this pair to an open plan that has `already` pairs: 4,
/// then 5.
pub fn may_add_pair(shape: Shape, already: usize, from: &[u8], to: &[u8]) -> Result<(), Refusal> {
    if !shape.is_plan_word(from) || !shape.is_plan_word(to) {
        Err(Refusal::BadWord)
    } else if already >= PAIRS {
        Err(Refusal::TooManyPairs)
    } else {
        Ok(())
    }
}

/// Refusal 12, "k outside −1,000 to 1,000".
pub fn exponent_in_range(k: i64) -> Result<(), Refusal> {
    if (-EXPONENT_LIMIT..=EXPONENT_LIMIT).contains(&k) {
        Ok(())
    } else {
        Err(Refusal::ExponentRange)
    }
}

/// Whether a reduced map keeps to 128 pairs and 16 digits in both columns.
pub fn within_limits(pairs: &Pairs) -> bool {
    let mut words = pairs.keys().chain(pairs.values());
    pairs.len() <= PAIRS && words.all(|word| word.len() <= WORD_DIGITS)
}
