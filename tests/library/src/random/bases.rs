//! Random bases. Each is grown from the belts by splitting words into their
//! parts, so that it is a basis by its making (document 004, an expansion of
//! the roots). An even one splits any word, a deep one goes down to 16 digits.

use reference::{Shape, Word, PAIRS, WORD_DIGITS};

use super::Rng;

pub fn every_shape() -> Vec<Shape> {
    let arities = 2..=9;
    arities
        .flat_map(|arity| (1..=9).map(move |roots| Shape { arity, roots }))
        .collect()
}

pub fn some_shape(rng: &mut Rng) -> Shape {
    Shape {
        arity: rng.between(2, 9) as u8,
        roots: rng.between(1, 9) as u8,
    }
}

/// The splits after which another one would pass the limit of pairs.
pub fn most_splits(shape: Shape) -> usize {
    splits_within(shape, PAIRS)
}

/// The most splits that leave at most `words` words.
pub fn splits_within(shape: Shape, words: usize) -> usize {
    words.saturating_sub(shape.roots.into()) / usize::from(shape.arity - 1)
}

/// A number of splits: mostly small, sometimes as many as the limit allows.
pub fn some_splits(rng: &mut Rng, shape: Shape) -> usize {
    let most = most_splits(shape);
    match rng.below(10) {
        0..=4 => rng.below(most.min(5) + 1),
        5..=7 => rng.below(most.min(20) + 1),
        8 => rng.below(most + 1),
        _ => most,
    }
}

/// A basis of either kind, its words in no special order.
pub fn basis(rng: &mut Rng, shape: Shape, splits: usize) -> Vec<Word> {
    if rng.chance(35) {
        deep_basis(rng, shape, splits)
    } else {
        even_basis(rng, shape, splits)
    }
}

/// A basis by splits of words chosen evenly. A word can always be split: 128
/// words of 16 digits don't cover a belt.
pub fn even_basis(rng: &mut Rng, shape: Shape, splits: usize) -> Vec<Word> {
    let mut words = shape.belts();
    for _ in 0..splits {
        let index = open_word(rng, &words);
        split(&mut words, index, shape);
    }
    words
}

/// A basis whose splits follow one word down, so that 15 of them reach words
/// of 16 digits; then the next word is followed.
pub fn deep_basis(rng: &mut Rng, shape: Shape, splits: usize) -> Vec<Word> {
    let mut words = shape.belts();
    let mut index = rng.below(words.len());
    for _ in 0..splits {
        if words[index].len() == WORD_DIGITS {
            index = open_word(rng, &words);
        }
        split(&mut words, index, shape);
        index = words.len() - rng.between(1, shape.arity.into());
    }
    words
}

fn open_word(rng: &mut Rng, words: &[Word]) -> usize {
    loop {
        let index = rng.below(words.len());
        if words[index].len() < WORD_DIGITS {
            return index;
        }
    }
}

/// Puts the parts of the word at `index` behind the other words.
fn split(words: &mut Vec<Word>, index: usize, shape: Shape) {
    let word = words.swap_remove(index);
    words.extend(shape.parts(&word));
}

#[cfg(test)]
mod tests {
    use super::*;
    use reference::basis::column_flaw;

    #[test]
    fn they_are_bases_and_reach_the_limits() {
        let mut rng = Rng::new(1);
        let (mut deep, mut wide) = (0, 0);
        for shape in every_shape() {
            for splits in [0, 1, 15, most_splits(shape)] {
                let splits = splits.min(most_splits(shape));
                let words = basis(&mut rng, shape, splits);
                assert_eq!(column_flaw(shape, &words), None, "{shape:?} {words:?}");
                assert!(words.len() <= PAIRS);
                deep += usize::from(words.iter().any(|word| word.len() == WORD_DIGITS));
                wide += usize::from(words.len() == PAIRS);
            }
        }
        assert!(deep > 20 && wide > 10, "{deep} {wide}");
    }
}
