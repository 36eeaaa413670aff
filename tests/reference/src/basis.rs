//! Bases by their definition. "A column is a basis when no word of it begins
//! another, none is there twice, and each belt is covered": the two ways to
//! miss it are an overlap and a gap, and an overlap is looked for first.

use std::collections::BTreeSet;

use crate::words::{Shape, Word, WORD_DIGITS};

/// What keeps a column from being a basis.
#[derive(Clone, Copy, Debug, PartialEq, Eq)]
pub enum Flaw {
    /// One word begins or equals another.
    Overlap,
    /// A belt isn't covered.
    Gap,
}

/// The two columns of a plan.
#[derive(Clone, Copy, Debug, PartialEq, Eq)]
pub enum Side {
    From,
    To,
}

/// The verdict on typed pairs that are no plan: "the verdict on a plan names
/// the column and, within it, the reason".
#[derive(Clone, Copy, Debug, PartialEq, Eq)]
pub struct Fault {
    pub side: Side,
    pub flaw: Flaw,
}

/// The verdict on two columns, "both made of the from column and after that
/// both of the to column".
pub fn verdict(shape: Shape, typed: &[(Word, Word)]) -> Result<(), Fault> {
    let (from, to): (Vec<Word>, Vec<Word>) = typed.iter().cloned().unzip();
    for (side, column) in [(Side::From, from), (Side::To, to)] {
        if let Some(flaw) = column_flaw(shape, &column) {
            return Err(Fault { side, flaw });
        }
    }
    Ok(())
}

/// The first flaw of a column of plan words, or none if it is a basis.
pub fn column_flaw(shape: Shape, column: &[Word]) -> Option<Flaw> {
    let listed: BTreeSet<Word> = column.iter().cloned().collect();
    if overlaps(column) {
        Some(Flaw::Overlap)
    } else if !shape.belts().iter().all(|b| covered(shape, &listed, b)) {
        Some(Flaw::Gap)
    } else {
        None
    }
}

/// Whether one word of the column begins or equals another, by comparing each
/// with each.
pub fn overlaps(column: &[Word]) -> bool {
    column.iter().enumerate().any(|(place, word)| {
        column[place + 1..]
            .iter()
            .any(|other| word.starts_with(other) || other.starts_with(word))
    })
}

/// "A block is covered if it is listed or if each of its n parts is covered.
/// Words of 16 digits have no parts in a plan."
pub fn covered(shape: Shape, listed: &BTreeSet<Word>, block: &[u8]) -> bool {
    let parts_covered = || {
        let parts = shape.parts(block);
        parts.iter().all(|part| covered(shape, listed, part))
    };
    listed.contains(block) || (block.len() < WORD_DIGITS && parts_covered())
}
