//! The stations that type into one desk (E5): which of them is named, the changes
//! that each has made, and its rights on the slots (E6). Only a Z that is done names
//! another, and only a G that is done gives a right.

use crate::refusal::Refusal;
use crate::rights::{Right, Rights};

/// "Eight stations now type into one desk": 0 to 7.
pub const STATIONS: usize = 8;

/// "Each station has the limit of 4,000,000,000."
pub const COUNT_LIMIT: u64 = 4_000_000_000;

/// The named station, and the counts and rights of all. "Before the first [Z], it
/// is station 0", and a fresh desk has made no changes.
#[derive(Clone, Debug, Default, PartialEq, Eq)]
pub struct Stations {
    named: usize,
    counts: [u64; STATIONS],
    rights: Rights,
}

impl Stations {
    /// Stations of a desk that may have come about in any way, with all rights.
    pub fn new(named: u8, counts: [u64; STATIONS]) -> Stations {
        let named = usize::from(named);
        assert!(named < STATIONS, "stations are 0 to 7");
        let within = counts.iter().all(|count| *count <= COUNT_LIMIT);
        assert!(within, "each count has a limit");
        let rights = Rights::default();
        Stations {
            named,
            counts,
            rights,
        }
    }

    /// The same stations with these rights.
    pub fn with_rights(self, rights: Rights) -> Stations {
        Stations { rights, ..self }
    }

    pub fn named(&self) -> u8 {
        self.named as u8
    }

    /// The counts of all stations.
    pub fn counts(&self) -> [u64; STATIONS] {
        self.counts
    }

    /// The rights of all stations.
    pub fn rights(&self) -> &Rights {
        &self.rights
    }

    /// "The named station's own changes."
    pub fn count(&self) -> u64 {
        self.counts[self.named]
    }

    /// Names a station for the records after this one; refusal 18, "a digit above 7".
    pub fn name(&mut self, station: u8) -> Result<(), Refusal> {
        in_range(station)?;
        self.named = usize::from(station);
        Ok(())
    }

    /// Refusal 20, "a missing right": the named station's on a slot.
    pub fn may(&self, slot: u8, right: Right) -> Result<(), Refusal> {
        if self.rights.of(self.named(), slot) < right {
            return Err(Refusal::MissingRight);
        }
        Ok(())
    }

    /// Refusal 19 for a record that is station 0's alone.
    pub fn zero_named(&self) -> Result<(), Refusal> {
        match self.named {
            0 => Ok(()),
            _ => Err(Refusal::WrongStation),
        }
    }

    /// Gives a right to a station that there is; refusal 19, "G from another station
    /// or for station 0".
    pub fn give(&mut self, station: u8, slot: u8, right: Right) -> Result<(), Refusal> {
        if self.named != 0 || station == 0 {
            return Err(Refusal::WrongStation);
        }
        self.rights.give(station, slot, right);
        Ok(())
    }

    /// Counts a change of the named station; refusal 16 at its own limit, and "one
    /// station at its limit leaves the others free to work".
    pub fn count_change(&mut self) -> Result<(), Refusal> {
        let count = &mut self.counts[self.named];
        if *count >= COUNT_LIMIT {
            return Err(Refusal::CountLimit);
        }
        *count += 1;
        Ok(())
    }
}

/// Refusal 18, "a digit above 7", which is no station.
pub fn in_range(station: u8) -> Result<(), Refusal> {
    if usize::from(station) < STATIONS {
        Ok(())
    } else {
        Err(Refusal::StationRange)
    }
}
