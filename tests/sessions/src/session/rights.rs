//! The steps that give rights (E6): station 0 takes its turn and gives a few, and
//! then a station that got one tries it. A session is more or less strict, so that
//! some have hardly a record that is refused for want of a right.

use super::{name, Session, SLOTS, STATIONS};
use crate::plans;

/// In how many of a hundred gifts a right is less than 2, by session.
const STRICT: &[usize] = &[5, 25, 40, 60, 80];

/// How strict a session is.
pub fn some_strictness(rng: &mut crate::rng::Rng) -> usize {
    *rng.pick(STRICT)
}

impl Session {
    /// G with this station, slot and right, as they stand in a right form. The book
    /// has it if it is one that station 0 may send.
    pub fn give(&mut self, station: usize, letter: &[u8], right: usize) {
        let digits = [[plans::digit(station)], [plans::digit(right)]];
        self.record(&[b"G", &digits[0], letter, &digits[1]]);
        let slot = SLOTS.iter().position(|slot| letter == [*slot]);
        if let (0, 1..=7, Some(slot), 0..=2) = (self.named, station, slot, right) {
            self.rights[station][slot] = right;
        }
    }

    /// A station that may get a right, mostly one that types.
    pub fn some_haulier(&mut self) -> usize {
        let typing: Vec<usize> = self.stations.iter().copied().filter(|s| *s > 0).collect();
        match self.rng.chance(85) && !typing.is_empty() {
            true => *self.rng.pick(&typing),
            false => self.rng.between(1, STATIONS - 1),
        }
    }

    fn some_right(&mut self) -> usize {
        match self.rng.chance(self.strictness) {
            true => self.rng.below(2),
            false => 2,
        }
    }

    /// A turn of station 0 in which it gives some rights, and then that of a station
    /// which tries the last of them.
    pub(super) fn give_rights(&mut self) {
        self.name_station(0);
        let (mut station, mut slot) = (self.some_haulier(), self.some_slot());
        for _ in 0..self.rng.between(1, 4) {
            match self.rng.below(3) {
                0 => station = self.some_haulier(),
                1 => slot = self.rng.below(SLOTS.len()),
                _ => slot = self.held_slot(),
            }
            let right = self.some_right();
            self.give(station, name(slot), right);
        }
        if self.rng.chance(70) {
            self.name_station(station);
            for _ in 0..self.rng.between(1, 3) {
                self.try_slot(slot);
            }
        }
    }

    /// The turn of a station that lacks a right by the book, which tries it.
    pub(super) fn try_rights(&mut self) {
        let (station, slot) = match self.lacking() {
            Some(lacking) => lacking,
            None => (self.some_haulier(), self.held_slot()),
        };
        self.name_station(station);
        for _ in 0..self.rng.between(1, 3) {
            self.try_slot(slot);
        }
    }

    /// All rights of a station at once, or 2 on every slot.
    pub(super) fn give_all_rights(&mut self) {
        self.name_station(0);
        let station = self.some_haulier();
        let back = self.rng.chance(60);
        for slot in 0..SLOTS.len() {
            let right = if back { 2 } else { self.some_right() };
            self.give(station, name(slot), right);
        }
        self.name_station(station);
        self.record(&[b"U"]);
    }

    /// One record that names this slot, often beside another.
    pub fn try_slot(&mut self, slot: usize) {
        let (one, other) = (name(slot), name(self.held_slot()));
        // now and then over the operand itself
        let target = match self.rng.chance(25) {
            true => one,
            false => name(self.some_slot()),
        };
        match self.rng.below(18) {
            0 => self.record(&[b"U"]),
            1 => self.record(&[b"L", one]),
            2 => self.record(&[b"W", one, b"1"]),
            3 => self.record(&[b"S", one, other]),
            4 => self.record(&[b"S", other, one]),
            5 => self.record(&[b"I", one, target]),
            6 => self.record(&[b"I", other, one]),
            7 => {
                let k = *self.rng.pick(&["1", "-2", "1001"]);
                self.record(&[b"K", one, k.as_bytes(), target]);
            }
            8 => self.record(&[b"K", other, b"-1", one]),
            9 => self.record(&[b"F", one, other, target]),
            10 => self.record(&[b"F", other, one, target]),
            11 => self.record(&[b"F", other, other, one]),
            12..=14 => self.record(&[b"C", one]),
            _ => self.try_writing(one),
        }
    }

    /// A plan of belts typed or made for a slot.
    fn try_writing(&mut self, letter: &[u8]) {
        let shape = self.shapes[0];
        match self.rng.chance(50) {
            true => {
                let (n, r) = ([plans::digit(shape.n)], [plans::digit(shape.r)]);
                self.record(&[b"P", letter, &n, &r]);
                for belt in shape.belts() {
                    self.record(&[b"M", &belt, &belt]);
                }
                self.record(&[b"E"]);
            }
            false => self.exercise_record(letter, shape, 1, 7),
        }
    }
}
