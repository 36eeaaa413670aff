//! The steps that load plans: a P, its M records and an E, on real plans of
//! every kind, and plans that turn back or round together with the F or K
//! that shows it.

use super::{name, Session};
use crate::plans::{self, Row, Shape};

impl Session {
    pub fn open(&mut self, slot: usize, shape: Shape) {
        let n = [plans::digit(shape.n)];
        let r = [plans::digit(shape.r)];
        self.record(&[b"P", name(slot), &n, &r]);
    }

    pub fn pairs(&mut self, rows: &[Row]) {
        for (from, to) in rows {
            self.record(&[b"M", from, to]);
        }
    }

    /// Writes a whole plan: its P, its M records and its E.
    pub fn load(&mut self, slot: usize, shape: Shape, rows: &[Row]) {
        self.open(slot, shape);
        self.pairs(rows);
        self.record(&[b"E"]);
    }

    /// Loads a real plan and enters it in the book.
    pub fn load_some_plan(&mut self) {
        let slot = self.some_slot();
        let shape = self.some_shape();
        let rows = self.plan_to_load(shape);
        self.load(slot, shape, &rows);
        self.enter(slot, shape, rows);
    }

    /// Loads a plan with long from-words and says where.
    pub(super) fn load_deep_plan(&mut self) -> usize {
        let slot = self.some_slot();
        let shape = self.some_shape();
        let rows = plans::deep_plan(&mut self.rng, shape);
        self.load(slot, shape, &rows);
        self.enter(slot, shape, rows);
        slot
    }

    /// Loads plans that send belts to belts, of two shapes with as many of them:
    /// one number of pairs, and mostly another n.
    pub(super) fn load_belts(&mut self) {
        for shape in [self.shapes[1], self.shapes[0]] {
            let slot = self.some_slot();
            let rows = plans::permutation(&mut self.rng, &shape.belts());
            self.load(slot, shape, &rows);
            self.enter(slot, shape, rows);
        }
    }

    /// A plan of the shape: one on the common basis or on the blocks, a loaded
    /// plan written in another way or with two images swapped, or any plan.
    fn plan_to_load(&mut self, shape: Shape) -> Vec<Row> {
        if shape == self.shapes[0] && self.rng.chance(35) {
            let size = self.rng.between(2, 3);
            return match self.rng.below(3) {
                0 => plans::permutation(&mut self.rng, &self.common),
                1 => plans::rings(&mut self.rng, &self.common, size),
                _ => self.blocks.plan(&mut self.rng),
            };
        }
        let slot = self.held_slot();
        match &self.slots[slot] {
            Some(held) if held.shape == shape && !held.rows.is_empty() && self.rng.chance(30) => {
                let mut rows = held.rows.clone();
                if self.rng.chance(40) {
                    let (one, two) = (self.rng.below(rows.len()), self.rng.below(rows.len()));
                    let image = rows[one].1.clone();
                    rows[one].1 = std::mem::replace(&mut rows[two].1, image);
                }
                let target = self.rng.between(1, plans::MOST_PAIRS);
                plans::padded(&mut self.rng, shape, rows, target)
            }
            _ => plans::some_plan(&mut self.rng, shape),
        }
    }

    /// Two plans on the blocks and one after the other: what both turn comes
    /// back, and the result often has fewer pairs than the table it is from.
    pub(super) fn turn_back(&mut self) {
        let (a, b, c) = (self.some_slot(), self.some_slot(), self.some_slot());
        let shape = self.shapes[0];
        for slot in [a, b] {
            let rows = self.blocks.plan(&mut self.rng);
            self.load(slot, shape, &rows);
            self.enter(slot, shape, rows);
        }
        self.record(&[b"F", name(a), name(b), name(c)]);
        self.enter_result(a, c);
    }

    /// A plan with a power that moves nothing, and that power or one next to
    /// it: a power on the way is often beyond the limits.
    pub(super) fn turn_round(&mut self) {
        let (a, c) = (self.some_slot(), self.some_slot());
        let shape = self.shapes[0];
        let splits = plans::turning_splits(shape);
        let splits = splits - self.rng.below(splits / 4 + 1);
        let turning = plans::turning_plan(&mut self.rng, shape, splits);
        let rows = turning.rows;
        self.load(a, shape, &rows);
        self.enter(a, shape, rows);
        let k = turning.period - 1 + self.rng.below(3);
        let sign = *self.rng.pick(&["", "-"]);
        let k = format!("{sign}{k}");
        self.record(&[b"K", name(a), k.as_bytes(), name(c)]);
        self.enter_result(a, c);
    }
}
