//! The values of the C interface, laid out as C lays them out: a desk with its
//! plans in one fixed table of packed words, a record without text, and the
//! answers, which begin with a number, 0 for a job done and else that of the
//! refusal.

use std::fmt;

use library::{Plan, PLACES};

/// The slots, and the place of the open plan behind them.
pub const SLOTS: usize = 8;
pub const OPEN: usize = SLOTS;
pub const BLOCKS: usize = SLOTS + 1;

/// The stations, each with a count and, but for station 0, with rights.
pub const STATIONS: usize = 8;

/// No reply has more bytes, DESK_LONGEST_REPLY of the header: a block of 128 lines
/// with two words of 16 digits and a place each, and a line.
pub const LONGEST_REPLY: usize = 128 * 40 + 7;

/// Two columns of words for each block.
pub const WORDS: usize = BLOCKS * 2 * PLACES;

/// The shape of a plan and the number of its pairs.
#[repr(C)]
#[derive(Clone, Copy, Debug, Default, PartialEq, Eq)]
pub struct Block {
    pub arity: u8,
    pub roots: u8,
    pub pairs: usize,
}

/// The named station, the changes of each, the rights of stations 1 to 7, which have
/// two bits for each slot, and the pairs in all slots. How the rights are laid out is
/// known here alone.
#[repr(C)]
#[derive(Clone, Copy, Debug, PartialEq, Eq)]
pub struct Control {
    pub station: u32,
    pub changes: [u32; STATIONS],
    pub rights: [u16; STATIONS - 1],
    pub pairs: u16,
}

impl Control {
    /// The right 2 on every slot.
    pub const ALL_RIGHTS: [u16; STATIONS - 1] = [0xAAAA; STATIONS - 1];

    pub const FRESH: Control = Control {
        station: 0,
        changes: [0; STATIONS],
        rights: Control::ALL_RIGHTS,
        pairs: 0,
    };

    /// The number in the place of the right of a station from 1 on, 3 too.
    pub fn right(&self, station: usize, slot: usize) -> u8 {
        (self.rights[station - 1] >> (2 * slot) & 3) as u8
    }

    /// Puts a number up to 3 into that place.
    pub fn put_right(&mut self, station: usize, slot: usize, right: u8) {
        let word = &mut self.rights[station - 1];
        *word = *word & !(3 << (2 * slot)) | u16::from(right & 3) << (2 * slot);
    }
}

/// Every place of a right, by station and slot.
pub fn places_of_rights() -> impl Iterator<Item = (usize, usize)> {
    (1..STATIONS).flat_map(|station| (0..SLOTS).map(move |slot| (station, slot)))
}

/// What is handed to the calls as a desk. Any bytes may stand in it; which
/// values are desks is for the calls to say.
#[repr(C)]
#[derive(Clone, Copy, PartialEq, Eq)]
pub struct Desk {
    pub blocks: [Block; BLOCKS],
    pub opened: u8,
    pub control: Control,
    pub columns: [u64; WORDS],
}

impl Desk {
    /// "A fresh desk has empty slots and count 0", station 0 is named and everyone has
    /// all rights.
    pub const FRESH: Desk = Desk {
        blocks: [Block {
            arity: 0,
            roots: 0,
            pairs: 0,
        }; BLOCKS],
        opened: 0,
        control: Control::FRESH,
        columns: [0; WORDS],
    };

    /// The shape, count and words of a block as one value of the library of
    /// plans, whether or not that value is a plan.
    pub fn value(&self, block: usize) -> Plan {
        let Block {
            arity,
            roots,
            pairs,
        } = self.blocks[block];
        let start = 2 * PLACES * block;
        let column = |from: usize| -> [u64; PLACES] {
            let words = &self.columns[from..from + PLACES];
            words.try_into().expect("a column has 128 places")
        };
        Plan {
            arity,
            roots,
            pairs,
            from: column(start),
            to: column(start + PLACES),
        }
    }

    /// Puts a plan into a slot, and the sum right.
    pub fn hold(&mut self, slot: usize, value: &Plan) {
        self.put(slot, value);
        self.settle();
    }

    /// The pairs that the slots count, added up as far as the place of the sum reaches.
    /// Of a desk that is all of them; of another value the counts may be anything.
    pub fn counted_pairs(&self) -> u16 {
        let counts = self.blocks[..SLOTS].iter().map(|block| block.pairs as u16);
        counts.fold(0, u16::wrapping_add)
    }

    /// Makes the sum what the slots count.
    pub fn settle(&mut self) {
        self.control.pairs = self.counted_pairs();
    }

    /// Puts a value into a block, shape, count and words.
    pub fn put(&mut self, block: usize, value: &Plan) {
        self.blocks[block] = Block {
            arity: value.arity,
            roots: value.roots,
            pairs: value.pairs,
        };
        let words = &mut self.columns[2 * PLACES * block..2 * PLACES * (block + 1)];
        let (from, to) = words.split_at_mut(PLACES);
        from.copy_from_slice(&value.from);
        to.copy_from_slice(&value.to);
    }

    /// The words of a block, from-words and then to-words.
    pub fn words(&mut self, block: usize) -> &mut [u64] {
        &mut self.columns[2 * PLACES * block..2 * PLACES * (block + 1)]
    }

    /// The desk without its open plan.
    pub fn without_open(&self) -> Desk {
        let mut desk = *self;
        desk.opened = 0;
        desk.put(OPEN, &Plan::ZERO);
        desk
    }

    /// The count of the named station, where it is one.
    pub fn count(&mut self) -> &mut u32 {
        &mut self.control.changes[self.control.station as usize]
    }

    /// Whether a block is all zeros.
    pub fn is_empty(&self, block: usize) -> bool {
        self.value(block) == Plan::ZERO
    }
}

/// The head, and the blocks that aren't all zeros.
impl fmt::Debug for Desk {
    fn fmt(&self, f: &mut fmt::Formatter) -> fmt::Result {
        let Control {
            station,
            changes,
            rights,
            pairs,
        } = self.control;
        write!(f, "open {}, station {station} of {changes:?}", self.opened)?;
        write!(f, ", {pairs} pairs")?;
        if rights != Control::ALL_RIGHTS {
            write!(f, ", rights {rights:04x?}")?;
        }
        for block in (0..BLOCKS).filter(|block| !self.is_empty(*block)) {
            write!(f, "\n  block {block}: {:?}", self.value(block))?;
        }
        Ok(())
    }
}

/// A record without text: its letter, its slots or numbers in the order in
/// which a line has them, the exponent of K, and the seed and the splits of X.
#[repr(C)]
#[derive(Clone, Copy, Debug, Default, PartialEq, Eq)]
pub struct Job {
    pub letter: u8,
    pub a: u8,
    pub b: u8,
    pub c: u8,
    pub k: i32,
    pub seed: u64,
    pub splits: u8,
}

/// How many bytes of reply stand at the start of the lent buffer; 0 in a
/// refusal, where 6 and 7 name the column b'F' or b'T'.
#[repr(C)]
#[derive(Clone, Copy, Debug, PartialEq, Eq)]
pub struct Written {
    pub number: u8,
    pub column: u8,
    pub length: usize,
}

impl Written {
    pub fn bytes(length: usize) -> Written {
        Written {
            number: 0,
            column: 0,
            length,
        }
    }

    pub fn refused(number: u8, column: u8) -> Written {
        Written {
            number,
            column,
            length: 0,
        }
    }
}

/// The number that the reply has, 0 where it has none or in a refusal.
#[repr(C)]
#[derive(Clone, Copy, Debug, PartialEq, Eq)]
pub struct Done {
    pub number: u8,
    pub column: u8,
    pub value: u32,
}

impl Done {
    pub fn value(value: u32) -> Done {
        Done {
            number: 0,
            column: 0,
            value,
        }
    }

    pub fn refused(number: u8, column: u8) -> Done {
        Done {
            number,
            column,
            value: 0,
        }
    }
}

/// How many bytes of a piece of input were taken, and how many bytes of replies
/// stand at the start of the lent buffer; both 0 in a refusal. A line that is too
/// long already may have begun before the piece, and behind it.
#[repr(C)]
#[derive(Clone, Copy, Debug, PartialEq, Eq)]
pub struct Fed {
    pub number: u8,
    pub overlong: bool,
    pub taken: usize,
    pub length: usize,
}

impl Fed {
    /// A refusal, which hands `overlong` back as it came.
    pub fn refused(number: u8, overlong: bool) -> Fed {
        Fed {
            number,
            overlong,
            taken: 0,
            length: 0,
        }
    }
}

#[cfg(test)]
mod tests {
    use super::{places_of_rights, Control, Desk, Fed, Job};
    use std::mem::{offset_of, size_of};

    /// The members of a job stand where include/desk.h has them.
    #[test]
    fn the_layout_of_a_job() {
        let offsets = [
            offset_of!(Job, letter),
            offset_of!(Job, a),
            offset_of!(Job, b),
            offset_of!(Job, c),
            offset_of!(Job, k),
            offset_of!(Job, seed),
            offset_of!(Job, splits),
        ];
        assert_eq!(offsets, [0, 1, 2, 3, 4, 8, 16]);
        assert_eq!(size_of::<Job>(), 24);
    }

    /// The members of the answer to a piece stand where include/desk.h has them.
    #[test]
    fn the_layout_of_what_was_fed() {
        let offsets = [
            offset_of!(Fed, number),
            offset_of!(Fed, overlong),
            offset_of!(Fed, taken),
            offset_of!(Fed, length),
        ];
        assert_eq!(offsets, [0, 1, 8, 16]);
        assert_eq!(size_of::<Fed>(), 24);
    }

    /// The members of a desk stand where include/desk.h has them.
    #[test]
    fn the_layout_of_a_desk() {
        let offsets = [
            offset_of!(Desk, blocks),
            offset_of!(Desk, opened),
            offset_of!(Desk, control),
            offset_of!(Desk, columns),
        ];
        assert_eq!(offsets, [0, 144, 148, 200]);
        assert_eq!(size_of::<Desk>(), 18_632);
        assert_eq!(offset_of!(Control, changes), 4);
        assert_eq!(offset_of!(Control, rights), 36);
        assert_eq!(offset_of!(Control, pairs), 50);
        assert_eq!(size_of::<Control>(), 52);
    }

    /// The open plan isn't in the sum, and counts beyond its place leave it by what
    /// they are beyond.
    #[test]
    fn the_pairs_that_are_counted() {
        let mut desk = Desk::FRESH;
        assert_eq!(desk.counted_pairs(), 0);
        for (block, pairs) in [3, 0, 128, 0, 0, 0, 0, 1, 77].into_iter().enumerate() {
            desk.blocks[block].pairs = pairs;
        }
        assert_eq!(desk.counted_pairs(), 132);
        desk.blocks[1].pairs = (1 << 63) + (1 << 16) + 2;
        desk.settle();
        assert_eq!(desk.control.pairs, 134);
        desk.blocks[1].pairs = usize::MAX;
        assert_eq!(desk.counted_pairs(), 131);
    }

    /// The right of station s on slot 'A' + i is `rights[s - 1] >> 2 * i & 3`.
    #[test]
    fn the_places_of_rights() {
        let mut control = Control::FRESH;
        assert!(places_of_rights().all(|(station, slot)| control.right(station, slot) == 2));
        control.put_right(1, 0, 0);
        control.put_right(1, 7, 1);
        control.put_right(7, 1, 3);
        assert_eq!(
            control.rights,
            [0x6AA8, 0xAAAA, 0xAAAA, 0xAAAA, 0xAAAA, 0xAAAA, 0xAAAE]
        );
        assert_eq!(
            [(1, 0), (1, 7), (7, 1)].map(|(s, i)| control.right(s, i)),
            [0, 1, 3]
        );
    }
}
