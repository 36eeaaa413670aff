//! The course of a session: it loads a few plans and then takes steps, chosen
//! by weight, that load plans (`loading`) or have X make them (`exercises`), work
//! on them and ask about them (`operations`), ask for places (`places`), name the
//! stations that do it (`stations`), give them rights (`rights`), or bring what a desk
//! has to refuse (`mischief`). Between the steps the status lamp asks for the pairs held
//! (`lamp`). A book (`book`) says what the slots are thought to hold and who may touch
//! them.

mod book;
mod exercises;
mod lamp;
mod loading;
mod operations;
mod places;
mod rights;
mod stations;
#[cfg(test)]
mod tests;

pub use book::{name, Held, SLOTS};
pub use stations::STATIONS;

use crate::mischief;
use crate::plans::{self, Blocks, Shape, Word};
use crate::rng::Rng;

/// A session while it is being written.
pub struct Session {
    pub rng: Rng,
    /// The chance of what stands between the steps.
    aside: Rng,
    pub bytes: Vec<u8>,
    /// The shapes of this session; the first is met most often, so that
    /// operations on two slots often meet equal shapes.
    pub shapes: [Shape; 3],
    /// One basis of the first shape whose permutations are loaded again and
    /// again: following those stays within the limits.
    pub common: Vec<Word>,
    /// Blocks of the first shape, for plans that turn each other back.
    blocks: Blocks,
    /// The slots that are written to; the others stay empty.
    in_play: Vec<usize>,
    /// The stations that type; the others are hardly ever named.
    stations: Vec<usize>,
    /// In how many of a hundred gifts a right is less than 2.
    strictness: usize,
    pub slots: [Option<Held>; 8],
    /// The station that is thought to be named, and the rights of all.
    named: usize,
    rights: [[usize; 8]; STATIONS],
}

/// The session of a seed, as the bytes of the desk program's input.
pub fn session(seed: u64) -> Vec<u8> {
    let mut session = Session::new(seed);
    for _ in 0..session.rng.between(2, 5) {
        session.load_some_plan();
    }
    for _ in 0..session.rng.between(38, 114) {
        session.step();
        session.between_steps();
    }
    session.end()
}

impl Session {
    pub fn new(seed: u64) -> Session {
        let mut rng = Rng::new(seed);
        // Seventy-two seeds in a row meet every shape as their first one.
        let first = Shape {
            n: 2 + (seed % 8) as usize,
            r: 1 + (seed / 8 % 9) as usize,
        };
        let second = Shape {
            n: rng.between(2, 9),
            r: first.r,
        };
        let third = Shape {
            n: first.n,
            r: rng.between(1, 9),
        };
        let splits = plans::some_splits(&mut rng, first).min(16);
        let common = plans::basis(&mut rng, first, splits);
        let blocks = Blocks::new(&mut rng, first);
        let mut in_play: Vec<usize> = (0..SLOTS.len()).collect();
        rng.shuffle(&mut in_play);
        in_play.truncate(rng.between(4, SLOTS.len()));
        let mut stations: Vec<usize> = (0..STATIONS).collect();
        rng.shuffle(&mut stations);
        stations.truncate(rng.between(2, STATIONS));
        let strictness = rights::some_strictness(&mut rng);
        Session {
            rng,
            aside: Rng::new(!seed),
            bytes: Vec::new(),
            shapes: [first, second, third],
            common,
            blocks,
            in_play,
            stations,
            strictness,
            slots: Default::default(),
            named: 0,
            rights: [[2; 8]; STATIONS],
        }
    }

    /// Writes one record.
    pub fn record(&mut self, fields: &[&[u8]]) {
        self.bytes.extend(fields.join(&b'\t'));
        self.bytes.push(b'\n');
    }

    /// One step of the session, chosen by weight.
    fn step(&mut self) {
        match self.rng.below(140) {
            0..=12 => self.load_some_plan(),
            13..=20 => mischief::load_near_miss(self),
            21..=34 => self.follow(),
            35..=39 => self.inverse(),
            40..=49 => self.power(),
            50..=55 => self.same(),
            56..=64 => self.route(),
            65..=67 => self.fronts(),
            68..=71 => self.list(),
            72 => self.clear(),
            73 => self.turn_back(),
            74 => self.turn_round(),
            75..=76 => self.survey(),
            77..=78 => self.record(&[b"T"]),
            79..=84 => self.exercise(),
            85..=91 => self.next_station(),
            92 => self.every_count(),
            93..=98 => self.give_rights(),
            99 => self.give_all_rights(),
            100..=104 => self.try_rights(),
            105..=108 => self.places(),
            _ => mischief::step(self),
        }
    }

    /// The end of the input: sometimes in an open plan, and sometimes with
    /// the last byte 10 missing.
    fn end(mut self) -> Vec<u8> {
        if self.rng.chance(15) {
            let shape = self.shapes[0];
            self.open(0, shape);
            self.record(&[b"M", b"1", b"1"]);
        } else {
            self.record(&[b"U"]);
            self.record(&[b"T"]);
            self.every_count();
            self.last_lamp();
        }
        if self.rng.chance(25) {
            self.bytes.pop();
        }
        self.bytes
    }
}
