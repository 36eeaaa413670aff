//! Load to exercise a new line (E3): the plan that shape, splits and seed decide,
//! before it is reduced. Its numbers come from Park and Miller's generator, and
//! one run of draws makes the from column, the to column and their pairing.

use std::collections::BTreeSet;

use crate::refusal::Refusal;
use crate::words::{Shape, Word};

/// "The next draw is 16807 times the last, modulo 2147483647".
pub const MULTIPLIER: u64 = 16_807;
pub const MODULUS: u64 = 2_147_483_647;

/// A run of draws, which has the last one.
#[derive(Clone, Debug, PartialEq, Eq)]
pub struct Draws {
    last: u64,
}

impl Draws {
    /// "The seed stands before the first draw."
    pub fn after(seed: u64) -> Draws {
        Draws { last: seed }
    }

    /// The next draw.
    pub fn draw(&mut self) -> u64 {
        self.last = MULTIPLIER * self.last % MODULUS;
        self.last
    }

    /// The next draw modulo a number of places: a place "counted from zero".
    pub fn place(&mut self, places: usize) -> usize {
        (self.draw() % places as u64) as usize
    }
}

/// Refusal 17, "a seed outside 1 to 2147483646".
pub fn seed_in_range(seed: u64) -> Result<(), Refusal> {
    if (1..MODULUS).contains(&seed) {
        Ok(())
    } else {
        Err(Refusal::SeedRange)
    }
}

/// The pairs before reduction: "make the from column so, then the to column,
/// drawing on", then the swaps.
pub fn unreduced(shape: Shape, splits: u8, seed: u64) -> Vec<(Word, Word)> {
    let mut draws = Draws::after(seed);
    let from = column(shape, splits, &mut draws);
    let mut to = column(shape, splits, &mut draws);
    shuffle(&mut to, &mut draws);
    from.into_iter().zip(to).collect()
}

/// A column in digit order. "Start from the r belts. Do s splits: draw, take the
/// draw modulo the number of words as a place in digit order counted from zero,
/// and put that word's n parts in its stead."
pub fn column(shape: Shape, splits: u8, draws: &mut Draws) -> Vec<Word> {
    let mut words: BTreeSet<Word> = shape.belts().into_iter().collect();
    for _ in 0..splits {
        let place = draws.place(words.len());
        let word = words.iter().nth(place).cloned();
        let word = word.expect("a place is below the number of words");
        words.remove(&word);
        words.extend(shape.parts(&word));
    }
    words.into_iter().collect()
}

/// "For i from the last place down to 1, draw and swap to-words i and draw modulo
/// (i+1)."
pub fn shuffle(words: &mut [Word], draws: &mut Draws) {
    for i in (1..words.len()).rev() {
        let other = draws.place(i + 1);
        words.swap(i, other);
    }
}
