//! Who may see and touch a slot (E6): the right of each station on each slot. A
//! slot is its letter here, and only A to H are asked for.

use std::collections::BTreeMap;

/// "Right being 0 nothing, 1 read, 2 read and write": each includes those before it.
#[derive(Clone, Copy, Debug, PartialEq, Eq, PartialOrd, Ord)]
pub enum Right {
    Nothing,
    Read,
    ReadAndWrite,
}

impl Right {
    /// All three, in the order of their numbers.
    pub const ALL: [Right; 3] = [Right::Nothing, Right::Read, Right::ReadAndWrite];

    /// The right of this number; there is none above 2.
    pub fn numbered(number: u8) -> Option<Right> {
        Right::ALL.get(usize::from(number)).copied()
    }

    pub fn number(self) -> u8 {
        self as u8
    }
}

/// The rights that are less than 2, by station and slot. "Everyone starts with 2",
/// so that there are none at first, and none is ever there for station 0.
#[derive(Clone, Debug, Default, PartialEq, Eq)]
pub struct Rights {
    restricted: BTreeMap<(u8, u8), Right>,
}

impl Rights {
    /// The right of a station on a slot.
    pub fn of(&self, station: u8, slot: u8) -> Right {
        let restricted = self.restricted.get(&(station, slot));
        restricted.copied().unwrap_or(Right::ReadAndWrite)
    }

    /// Gives a station a right on a slot, in place of the one it had.
    pub fn give(&mut self, station: u8, slot: u8, right: Right) {
        assert_ne!(station, 0, "station 0 always has 2");
        self.restricted.insert((station, slot), right);
        self.restricted
            .retain(|_, right| *right < Right::ReadAndWrite);
    }
}
