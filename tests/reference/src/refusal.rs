//! The refusals of the desk and the numbers that document 01, E3, E5, E6 and E8 give them.
//! Numbers 14 and 15 belong to library calls with lent buffers and lent plans;
//! nothing of that kind is lent here, so they don't occur. 13 is the library's
//! alone too, since W has a block instead, but a route needs nothing lent.

use crate::basis::{Fault, Flaw, Side};

/// Why a record or an operation is refused.
#[derive(Clone, Copy, Debug, PartialEq, Eq)]
pub enum Refusal {
    /// 1, "unknown letter, wrong number of fields, a field form, or a line
    /// too long".
    Form,
    /// 2, "an M or E with no plan open, or any other record while one is open".
    Turn,
    /// 3, "n or r outside its range".
    ShapeRange,
    /// 4, "a word that is empty, too long or has a wrong digit"; of X too long.
    BadWord,
    /// 5, "a 129th pair", one at a time or, of X, in its unreduced plan.
    TooManyPairs,
    /// 6 and 7, a column that is no basis.
    Column(Fault),
    /// 8, "a slot byte outside A to H".
    SlotRange,
    /// 9, an operand is empty.
    EmptySlot,
    /// 10, "shapes differ".
    ShapesDiffer,
    /// 11, a reduced result breaks a limit.
    ResultLimit,
    /// 12, "k outside −1,000 to 1,000".
    ExponentRange,
    /// 13, "the code is a proper beginning of a from-word".
    CodeTooShort,
    /// 16, "the count is at its limit", that of the named station.
    CountLimit,
    /// 17, "a seed outside 1 to 2147483646".
    SeedRange,
    /// 18, "a digit above 7", which is no station.
    StationRange,
    /// 19, "G from another station or for station 0", and H from another station.
    WrongStation,
    /// 20, "a missing right" on a slot that is named.
    MissingRight,
}

impl Refusal {
    /// The number of document 01, or of E3 for 17, of E5 for 18 and of E6 for 19 and 20.
    pub fn number(self) -> u8 {
        match self {
            Refusal::Form => 1,
            Refusal::Turn => 2,
            Refusal::ShapeRange => 3,
            Refusal::BadWord => 4,
            Refusal::TooManyPairs => 5,
            Refusal::Column(fault) => flaw_number(fault.flaw),
            Refusal::SlotRange => 8,
            Refusal::EmptySlot => 9,
            Refusal::ShapesDiffer => 10,
            Refusal::ResultLimit => 11,
            Refusal::ExponentRange => 12,
            Refusal::CodeTooShort => 13,
            Refusal::CountLimit => 16,
            Refusal::SeedRange => 17,
            Refusal::StationRange => 18,
            Refusal::WrongStation => 19,
            Refusal::MissingRight => 20,
        }
    }

    /// "A refusal is `no⇥` and its number; those of E for a column add ⇥F or
    /// ⇥T (from, to)."
    pub fn line(self) -> String {
        match self {
            Refusal::Column(fault) => {
                format!("no\t{}\t{}\n", self.number(), side_letter(fault.side))
            }
            _ => format!("no\t{}\n", self.number()),
        }
    }
}

fn flaw_number(flaw: Flaw) -> u8 {
    match flaw {
        Flaw::Overlap => 6,
        Flaw::Gap => 7,
    }
}

fn side_letter(side: Side) -> char {
    match side {
        Side::From => 'F',
        Side::To => 'T',
    }
}
