//! The book of a session: what the slots are thought to hold and what rights the
//! stations are thought to have, and the choice of slots by it. What the desk replies
//! is not known here; where the book is wrong about a slot, the session is only a
//! little less to the point.

use super::Session;
use crate::plans::{Row, Shape};

/// The slot letters, in the order of the book.
pub const SLOTS: &[u8; 8] = b"ABCDEFGH";

/// The field that names a slot.
pub fn name(slot: usize) -> &'static [u8] {
    &SLOTS[slot..=slot]
}

/// What a slot is thought to hold: its shape, and the rows it was loaded
/// with; no rows where the plan came from another plan.
#[derive(Clone)]
pub struct Held {
    pub shape: Shape,
    pub rows: Vec<Row>,
}

impl Session {
    pub fn some_shape(&mut self) -> Shape {
        match self.rng.below(10) {
            0 => self.shapes[1],
            1 => self.shapes[2],
            _ => self.shapes[0],
        }
    }

    /// A slot that a plan may be written to, mostly by the named station too.
    pub fn some_slot(&mut self) -> usize {
        let in_play = self.in_play.clone();
        self.within_rights(in_play, 2)
    }

    /// One of these slots, mostly one on which the named station has this right.
    fn within_rights(&mut self, slots: Vec<usize>, right: usize) -> usize {
        let has = |slot: &usize| self.rights[self.named][*slot] >= right;
        let granted: Vec<usize> = slots.iter().copied().filter(has).collect();
        match granted.is_empty() || self.rng.chance(12) {
            true => *self.rng.pick(&slots),
            false => *self.rng.pick(&granted),
        }
    }

    /// A station that lacks a right and the slot, by the book.
    pub fn lacking(&mut self) -> Option<(usize, usize)> {
        let lacking = self.all_lacking();
        match lacking.is_empty() {
            true => None,
            false => Some(*self.rng.pick(&lacking)),
        }
    }

    /// All stations that lack a right, and the slots.
    pub(super) fn all_lacking(&self) -> Vec<(usize, usize)> {
        let all =
            (1..self.rights.len()).flat_map(|station| (0..8).map(move |slot| (station, slot)));
        let lacks = |(station, slot): &(usize, usize)| self.rights[*station][*slot] < 2;
        all.filter(lacks).collect()
    }

    /// A slot thought to be empty, where there is one.
    pub fn empty_slot(&mut self) -> usize {
        let empty = |slot: &usize| self.slots[*slot].is_none();
        let first = (0..SLOTS.len()).find(empty);
        first.unwrap_or_else(|| self.some_slot())
    }

    /// A slot thought to be held, where there is one.
    pub fn held_slot(&mut self) -> usize {
        let held: Vec<usize> = (0..SLOTS.len())
            .filter(|&slot| self.slots[slot].is_some())
            .collect();
        if held.is_empty() || self.rng.chance(3) {
            self.empty_slot()
        } else {
            self.within_rights(held, 1)
        }
    }

    /// A slot thought to hold the same shape as `slot`, most of the time.
    pub(super) fn mate(&mut self, slot: usize) -> usize {
        let shape = self.slots[slot].as_ref().map(|held| held.shape);
        let mates: Vec<usize> = (0..SLOTS.len())
            .filter(|&other| self.slots[other].as_ref().map(|held| held.shape) == shape)
            .collect();
        if self.rng.chance(12) {
            self.some_slot()
        } else {
            self.within_rights(mates, 1)
        }
    }

    /// Where a result goes: more often over a plan of the same shape, so
    /// that the book stays right when the result is refused.
    pub(super) fn target(&mut self, source: usize) -> usize {
        let mate = self.mate(source);
        if self.rng.chance(70) && self.rights[self.named][mate] > 1 {
            mate
        } else {
            self.some_slot()
        }
    }

    /// Enters in the book that a slot now holds a plan, where the named station may
    /// have written it.
    pub fn enter(&mut self, slot: usize, shape: Shape, rows: Vec<Row>) {
        if self.rights[self.named][slot] > 1 {
            self.slots[slot] = Some(Held { shape, rows });
        }
    }

    /// Enters in the book that `target` now holds a plan of `source`'s shape, where
    /// the named station may have it so.
    pub(super) fn enter_result(&mut self, source: usize, target: usize) {
        let readable = self.rights[self.named][source] > 0;
        let shape = self.slots[source].as_ref().map(|held| held.shape);
        if let (true, Some(shape)) = (readable, shape) {
            self.enter(target, shape, Vec::new());
        }
    }
}
