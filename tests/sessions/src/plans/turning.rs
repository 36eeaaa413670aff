//! Plans that turn something round and back again: powers that grow and then
//! shrink to the plan that moves nothing, and blocks that one plan turns and
//! the next turns back. A table or a power on the way may be beyond the limits
//! where the reduced result is within them.

use super::bases::even_basis;
use super::words::{extended, parts, Row, Shape, Word, MOST_DIGITS, MOST_PAIRS};
use crate::rng::Rng;

/// The ways in an order other than their own.
pub fn turned_ways(rng: &mut Rng, n: usize) -> Vec<usize> {
    let mut ways: Vec<usize> = (1..=n).collect();
    if rng.chance(50) {
        let by = rng.between(1, n - 1);
        ways.rotate_left(by);
    } else {
        let place = rng.below(n - 1);
        ways.swap(place, place + 1);
    }
    ways
}

/// A plan whose powers grow and shrink again.
pub struct Turning {
    pub rows: Vec<Row>,
    /// The power that moves nothing.
    pub period: usize,
}

/// Behind each word of a basis, way 1 goes to way 2 and so on, and the parts
/// of the last way to turned parts of way 1. Powers of this grow, up to n
/// times n pairs behind a word, and shrink again to the plan that moves
/// nothing: a power may be within the limits and one before it may not.
pub fn turning_plan(rng: &mut Rng, shape: Shape, splits: usize) -> Turning {
    let words = even_basis(rng, shape, splits);
    let images = turned_ways(rng, shape.n);
    let mut rows = Vec::new();
    for (place, word) in words.iter().enumerate() {
        let left = words.len() - place - 1;
        let fits = rows.len() + left + 2 * shape.n - 1 <= MOST_PAIRS;
        if !fits || word.len() + 2 > MOST_DIGITS {
            rows.push((word.clone(), word.clone()));
            continue;
        }
        for way in 1..shape.n {
            rows.push((extended(word, way), extended(word, way + 1)));
        }
        let (last, first) = (extended(word, shape.n), extended(word, 1));
        for (way, &image) in (1..).zip(&images) {
            rows.push((extended(&last, way), extended(&first, image)));
        }
    }
    rng.shuffle(&mut rows);
    let period = shape.n * order(&images);
    Turning { rows, period }
}

/// After how many turns the ways are in their own order again.
fn order(images: &[usize]) -> usize {
    let mut ways = images.to_vec();
    let mut turns = 1;
    while !ways.is_sorted() {
        ways = ways.iter().map(|&way| images[way - 1]).collect();
        turns += 1;
    }
    turns
}

/// The splits after which every word of a basis can be turned as above, and
/// few words more could.
pub fn turning_splits(shape: Shape) -> usize {
    let words = MOST_PAIRS / (2 * shape.n - 1);
    words.saturating_sub(shape.r) / (shape.n - 1)
}

/// Blocks of one shape that plans turn round or leave alone. What one plan of
/// this kind turns, another turns back, so that the table of one after the
/// other may have far more than 128 pairs and the reduced result may not.
pub struct Blocks {
    words: Vec<Word>,
    /// The ways behind a block that are turned round, in two or more places.
    tails: Vec<Word>,
}

impl Blocks {
    pub fn new(rng: &mut Rng, shape: Shape) -> Blocks {
        let mut tails = vec![Word::new()];
        while tails.len() < 4 {
            let longer = tails.iter().flat_map(|tail| parts(tail, shape.n));
            tails = longer.collect();
        }
        let wanted = rng.between(150, 250) / tails.len();
        let splits = (wanted - shape.r).div_ceil(shape.n - 1);
        let words = even_basis(rng, shape, splits);
        Blocks { words, tails }
    }

    /// A plan that turns some of the blocks, as many as the limit allows or
    /// fewer.
    pub fn plan(&self, rng: &mut Rng) -> Vec<Row> {
        let mut words = self.words.clone();
        rng.shuffle(&mut words);
        let most = (MOST_PAIRS - words.len()) / (self.tails.len() - 1);
        let turned = rng.between(most / 2, most).min(words.len());
        let mut rows = Vec::new();
        for word in &words[..turned] {
            let images = self.tails.iter().rev();
            for (from, to) in self.tails.iter().zip(images) {
                rows.push(([&word[..], from].concat(), [&word[..], to].concat()));
            }
        }
        let still = words[turned..].iter();
        rows.extend(still.map(|word| (word.clone(), word.clone())));
        rows
    }
}

#[cfg(test)]
mod tests {
    use super::*;
    use crate::plans::check::{columns, every_shape, is_basis};

    #[test]
    fn turned_ways_are_never_in_order() {
        let mut rng = Rng::new(16);
        for n in 2..=9 {
            for _ in 0..20 {
                let mut ways = turned_ways(&mut rng, n);
                assert!(ways.windows(2).any(|pair| pair[0] > pair[1]));
                ways.sort_unstable();
                assert_eq!(ways, (1..=n).collect::<Vec<_>>());
            }
        }
    }

    #[test]
    fn turned_ways_come_back_in_their_order() {
        assert_eq!(order(&[2, 1]), 2);
        assert_eq!(order(&[2, 3, 4, 5, 6, 7, 1]), 7);
        assert_eq!(order(&[3, 4, 5, 6, 1, 2]), 3);
        assert_eq!(order(&[1, 3, 2, 4]), 2);
    }

    #[test]
    fn plans_of_blocks_are_plans_that_need_a_large_table() {
        let mut rng = Rng::new(17);
        for shape in every_shape() {
            let blocks = Blocks::new(&mut rng, shape);
            let whole = blocks.words.len() * blocks.tails.len();
            assert!(whole > MOST_PAIRS, "{shape:?} {whole}");
            let rows = blocks.plan(&mut rng);
            let (from, to) = columns(&rows);
            assert!(rows.len() <= MOST_PAIRS);
            assert!(is_basis(shape, &from) && is_basis(shape, &to));
            assert!(rows.iter().any(|(from, to)| from != to));
        }
    }
}
