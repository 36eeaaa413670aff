//! What stands between two steps: the status lamp, which asks for the pairs held (E8)
//! whatever the stations are at, and a few records whose refusals come in an order that
//! the steps seldom show. All of it draws from a stream of its own, so that the steps of
//! a seed are the same with it and without it.

use super::{name, Session, STATIONS};
use crate::plans;

/// Lines that are nearly an H.
const NEARLY: &[&[u8]] = &[
    b"H\t", b"H\t0", b"H\tA", b"H\t\t", b"\tH", b"HH", b"h", b"H ", b" H", b"H\r", b"H\0", b"\0H",
    b"H\xff",
];

impl Session {
    /// What comes behind a step, if anything.
    pub(super) fn between_steps(&mut self) {
        match self.aside.below(100) {
            0..=23 => self.lamp(),
            24..=29 => self.record(&[b"H"]),
            30..=33 => self.lamp_in_open_plan(),
            34..=35 => self.nearly_lamp(),
            36..=37 => self.gift_to_nobody(),
            38..=39 => self.power_without_right(),
            _ => {}
        }
    }

    /// The lamp at the end of a session, in a last line without byte 10 too.
    pub(super) fn last_lamp(&mut self) {
        match self.aside.below(4) {
            0 => self.record(&[b"H"]),
            1 | 2 => {
                self.name_station(0);
                self.record(&[b"H"]);
            }
            _ => {}
        }
    }

    /// Something that another station does between two records of the named one.
    fn amid(&mut self, station: usize, records: impl FnOnce(&mut Session)) {
        let named = self.named;
        if named != station {
            self.name_station(station);
        }
        records(self);
        if named != station {
            self.name_station(named);
        }
    }

    /// H from station 0.
    fn lamp(&mut self) {
        self.amid(0, |session| session.record(&[b"H"]));
    }

    /// H between the pairs of an open plan, which then isn't there for the rest of it.
    fn lamp_in_open_plan(&mut self) {
        let station = self.some_asking_station();
        let slot = *self.aside.pick(&self.in_play);
        let shape = self.shapes[0];
        let rows: Vec<_> = shape.belts().into_iter().map(|b| (b.clone(), b)).collect();
        let cut = self.aside.below(rows.len() + 1);
        let line = match self.aside.chance(80) {
            true => b"H",
            false => *self.aside.pick(NEARLY),
        };
        self.amid(station, |session| {
            session.open(slot, shape);
            session.pairs(&rows[..cut]);
            session.record(&[line]);
            session.pairs(&rows[cut..]);
            session.record(&[b"E"]);
        });
        self.lamp();
    }

    /// A line of a wrong form, from station 0 or another, and what H says behind it.
    fn nearly_lamp(&mut self) {
        let line = *self.aside.pick(NEARLY);
        let station = self.some_asking_station();
        self.amid(station, |session| {
            session.record(&[line]);
            session.record(&[b"H"]);
        });
    }

    fn some_asking_station(&mut self) -> usize {
        match self.aside.chance(40) {
            true => 0,
            false => self.aside.below(STATIONS),
        }
    }

    /// G with a station that there isn't and a slot that there isn't, or for station 0.
    fn gift_to_nobody(&mut self) {
        let right = self.aside.below(3);
        if self.aside.chance(40) {
            let digit = [plans::digit(self.aside.between(STATIONS, 9))];
            let slot: &[u8] = *self.aside.pick(&[b"I", b"@", b"a", b"0"]);
            return self.record(&[b"G", &digit, slot, &[plans::digit(right)]]);
        }
        let slot = *self.aside.pick(&self.in_play);
        self.amid(0, |session| session.give(0, name(slot), right));
    }

    /// K with an exponent out of its range, from a station that lacks a right by the
    /// book.
    fn power_without_right(&mut self) {
        let lacking = self.all_lacking();
        if lacking.is_empty() {
            return;
        }
        let (station, slot) = *self.aside.pick(&lacking);
        let other = name(*self.aside.pick(&self.in_play));
        let k: &[u8] = *self.aside.pick(&[b"1001" as &[u8], b"-1001", b"9999"]);
        // its power needs 1 on the operand and 2 on the target
        let fields = match self.rights[station][slot] {
            0 => [b"K" as &[u8], name(slot), k, other],
            _ => [b"K" as &[u8], other, k, name(slot)],
        };
        self.amid(station, |session| session.record(&fields));
    }
}
