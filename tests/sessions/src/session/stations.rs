//! The steps that name stations (E5): a few of them type by turns, each more or
//! less, and are asked for their counts.

use super::Session;
use crate::plans;

/// The stations that there are.
pub const STATIONS: usize = 8;

impl Session {
    /// Z with this digit where no plan is open.
    pub fn name_station(&mut self, digit: usize) {
        self.naming(digit);
        if digit < STATIONS {
            self.named = digit;
        }
    }

    /// Z with this digit as a record, whatever comes of it.
    pub fn naming(&mut self, digit: usize) {
        self.record(&[b"Z", &[plans::digit(digit)]]);
    }

    /// A station that types in this session.
    fn some_station(&mut self) -> usize {
        *self.rng.pick(&self.stations)
    }

    /// Another station's turn, mostly one that types, and often its count before it
    /// does.
    pub(super) fn next_station(&mut self) {
        let station = match self.rng.chance(90) {
            true => self.some_station(),
            false => self.rng.below(STATIONS),
        };
        self.name_station(station);
        if self.rng.chance(40) {
            self.record(&[b"T"]);
        }
    }

    /// The counts of all stations in some order, which names the last of them.
    pub(super) fn every_count(&mut self) {
        let mut stations: Vec<usize> = (0..STATIONS).collect();
        self.rng.shuffle(&mut stations);
        for station in stations {
            self.name_station(station);
            self.record(&[b"T"]);
        }
    }
}
