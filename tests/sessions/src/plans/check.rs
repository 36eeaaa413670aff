//! What the tests of this folder ask of a plan: that both its columns are
//! bases, by a way of telling that does not follow their making.

use super::words::{Row, Shape, Word};

/// A second view of what a basis is: no word begins another, and the
/// shares of the words (one part in n for every way) add up to the belts.
pub fn is_basis(shape: Shape, words: &[Word]) -> bool {
    let apart = words.iter().enumerate().all(|(i, word)| {
        words
            .iter()
            .enumerate()
            .all(|(j, other)| i == j || !other.starts_with(word))
    });
    let whole = (shape.n as u128).pow(15);
    let share = |word: &Word| whole / (shape.n as u128).pow(word.len() as u32 - 1);
    let total: u128 = words.iter().map(share).sum();
    apart && total == whole * shape.r as u128
}

pub fn every_shape() -> Vec<Shape> {
    (2..=9)
        .flat_map(|n| (1..=9).map(move |r| Shape { n, r }))
        .collect()
}

/// The from-words and the to-words.
pub fn columns(rows: &[Row]) -> (Vec<Word>, Vec<Word>) {
    rows.iter().cloned().unzip()
}
