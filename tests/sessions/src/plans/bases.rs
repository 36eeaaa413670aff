//! Bases by chance. A basis is grown from the belts by splitting words into
//! their parts, so that it is one by its making.

use super::words::{parts, Shape, Word, MOST_DIGITS};
use crate::rng::Rng;

/// A number of splits: mostly small, sometimes as many as the limit allows.
pub fn some_splits(rng: &mut Rng, shape: Shape) -> usize {
    let most = shape.most_splits();
    match rng.below(10) {
        0..=4 => rng.below(most.min(5) + 1),
        5..=7 => rng.below(most.min(20) + 1),
        8 => rng.below(most + 1),
        _ => most,
    }
}

/// A basis of one of the two kinds.
pub fn basis(rng: &mut Rng, shape: Shape, splits: usize) -> Vec<Word> {
    if rng.chance(30) {
        deep_basis(rng, shape, splits)
    } else {
        even_basis(rng, shape, splits)
    }
}

/// A basis by `splits` splits of words chosen evenly. There is always a word
/// left to split: 128 words of 16 digits cannot cover a belt.
pub fn even_basis(rng: &mut Rng, shape: Shape, splits: usize) -> Vec<Word> {
    let mut words = shape.belts();
    for _ in 0..splits {
        let open: Vec<usize> = (0..words.len())
            .filter(|&index| words[index].len() < MOST_DIGITS)
            .collect();
        let index = *rng.pick(&open);
        split(&mut words, index, shape.n);
    }
    words
}

/// A basis whose splits follow one word down, so that it goes deep early.
pub fn deep_basis(rng: &mut Rng, shape: Shape, splits: usize) -> Vec<Word> {
    let mut words = shape.belts();
    let mut index = rng.below(words.len());
    for _ in 0..splits {
        while words[index].len() == MOST_DIGITS {
            index = rng.below(words.len());
        }
        split(&mut words, index, shape.n);
        index = words.len() - 1 - rng.below(shape.n);
    }
    words
}

/// Puts the parts of the word at `index` in its place.
fn split(words: &mut Vec<Word>, index: usize, n: usize) {
    let word = words.swap_remove(index);
    words.extend(parts(&word, n));
}
