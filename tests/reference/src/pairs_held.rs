//! Pairs held, kept ready (E8): a sum that is noted at each change, and never added up
//! over the slots.

/// "The pairs kept less the pairs overwritten or emptied, counted from a fresh desk on."
#[derive(Clone, Debug, Default, PartialEq, Eq)]
pub struct PairsHeld {
    kept: u64,
    gone: u64,
}

impl PairsHeld {
    /// Notes a plan of so many pairs that goes into a slot.
    pub fn keep(&mut self, pairs: usize) {
        self.kept += pairs as u64;
    }

    /// Notes a plan of so many pairs that was overwritten or emptied.
    pub fn lose(&mut self, pairs: usize) {
        self.gone += pairs as u64;
    }

    /// The number of H.
    pub fn number(&self) -> u64 {
        self.kept - self.gone
    }
}
