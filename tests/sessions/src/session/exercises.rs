//! The steps that have X make a plan, and use it: they list, route, invert, raise
//! and follow it, and make it again from the same fields or from another seed.

use super::{name, Session};
use crate::plans::{self, Shape, MOST_EXERCISED};

/// The largest seed.
pub const LAST_SEED: usize = 2_147_483_646;

impl Session {
    /// X with these fields, of which s and the seed are written as they are.
    pub fn exercise_record(&mut self, slot: &[u8], shape: Shape, splits: usize, seed: usize) {
        let (n, r) = ([plans::digit(shape.n)], [plans::digit(shape.r)]);
        let (splits, seed) = (splits.to_string(), seed.to_string());
        self.record(&[b"X", slot, &n, &r, splits.as_bytes(), seed.as_bytes()]);
    }

    /// X into a slot, entered in the book; a plan of X is hardly ever refused here.
    fn keep_exercise(&mut self, slot: usize, shape: Shape, splits: usize, seed: usize) {
        self.exercise_record(name(slot), shape, splits, seed);
        self.enter(slot, shape, Vec::new());
    }

    /// A plan of X and a record or a few on it.
    pub(super) fn exercise(&mut self) {
        let (a, b, c) = (self.some_slot(), self.some_slot(), self.some_slot());
        let shape = match self.rng.below(20) {
            0..=6 => plans::any_shape(&mut self.rng),
            // with one split every other plan of this shape joins
            7..=9 => Shape { n: 2, r: 1 },
            _ => self.some_shape(),
        };
        let (mut splits, seed) = (self.some_splits(shape), self.some_seed());
        if (shape.n, shape.r) == (2, 1) && self.rng.chance(50) {
            splits = 1;
        }
        self.keep_exercise(a, shape, splits, seed);
        match self.rng.below(9) {
            0 => self.record(&[b"L", name(a)]),
            // the block of a belt, and mostly an image
            place @ (1 | 2) => {
                let code = plans::random_code(&mut self.rng, shape, [1, 20][place - 1]);
                self.record(&[b"W", name(a), &code]);
            }
            3 => {
                self.record(&[b"I", name(a), name(b)]);
                self.enter_result(a, b);
                self.record(&[b"F", name(a), name(b), name(c)]);
                self.enter_result(a, c);
            }
            4 => {
                self.record(&[b"K", name(a), b"2", name(b)]);
                self.enter_result(a, b);
            }
            5 => {
                self.keep_exercise(b, shape, splits, seed);
                self.record(&[b"S", name(a), name(b)]);
            }
            6 => {
                let other = self.some_seed();
                self.keep_exercise(b, shape, splits, other);
                self.record(&[b"F", name(a), name(b), name(c)]);
                self.enter_result(a, c);
            }
            7 => self.record(&[b"U"]),
            _ => self.record(&[b"T"]),
        }
    }

    /// A number of splits within the limit of pairs: few, some, or the most.
    fn some_splits(&mut self, shape: Shape) -> usize {
        let most = shape.most_splits().min(MOST_EXERCISED);
        match self.rng.below(10) {
            0..=4 => self.rng.between(0, most.min(4)),
            5..=7 => self.rng.between(0, most.min(16)),
            8 => most,
            _ => self.rng.between(0, most),
        }
    }

    /// A seed in its range, often at one of its ends.
    pub fn some_seed(&mut self) -> usize {
        match self.rng.below(10) {
            0 | 1 => self.rng.between(1, 20),
            2 => LAST_SEED - self.rng.below(3),
            _ => self.rng.between(1, LAST_SEED),
        }
    }
}
