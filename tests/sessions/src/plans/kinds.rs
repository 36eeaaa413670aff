//! The plain kinds of plan: two bases paired by chance or in order, one basis
//! permuted, and the same map on more pairs, with and without parts that must
//! not join again.

use super::bases::{basis, deep_basis, even_basis};
use super::turning::turned_ways;
use super::words::{extended, Row, Shape, Word, MOST_DIGITS, MOST_PAIRS};
use crate::rng::Rng;

fn pair_up(from: Vec<Word>, to: Vec<Word>) -> Vec<Row> {
    from.into_iter().zip(to).collect()
}

/// The plan that moves nothing, on its fewest pairs.
pub fn identity(shape: Shape) -> Vec<Row> {
    pair_up(shape.belts(), shape.belts())
}

/// Two bases of as many splits, and so of as many words, paired by chance.
pub fn any_plan(rng: &mut Rng, shape: Shape, splits: usize) -> Vec<Row> {
    let from = basis(rng, shape, splits);
    let mut to = basis(rng, shape, splits);
    rng.shuffle(&mut to);
    pair_up(from, to)
}

/// A plan with from-words of many digits, whatever the to-words.
pub fn deep_plan(rng: &mut Rng, shape: Shape) -> Vec<Row> {
    let most = shape.most_splits();
    let splits = rng.between(most.min(9), most.min(MOST_DIGITS - 1));
    let from = deep_basis(rng, shape, splits);
    let mut to = basis(rng, shape, splits);
    rng.shuffle(&mut to);
    pair_up(from, to)
}

/// Two bases paired in the order of their words, so that powers go on growing.
pub fn growing_plan(rng: &mut Rng, shape: Shape, splits: usize) -> Vec<Row> {
    let mut from = even_basis(rng, shape, splits);
    let mut to = even_basis(rng, shape, splits);
    from.sort();
    to.sort();
    let mut rows = pair_up(from, to);
    rng.shuffle(&mut rows);
    rows
}

/// The words of one basis sent to each other by chance.
pub fn permutation(rng: &mut Rng, words: &[Word]) -> Vec<Row> {
    let mut to = words.to_vec();
    rng.shuffle(&mut to);
    pair_up(words.to_vec(), to)
}

/// The words of one basis moved round in rings of `size`, so that the plan
/// has at most that order; the words left over stay where they are.
pub fn rings(rng: &mut Rng, words: &[Word], size: usize) -> Vec<Row> {
    let mut from = words.to_vec();
    rng.shuffle(&mut from);
    let mut to = from.clone();
    for ring in to.chunks_exact_mut(size) {
        if rng.chance(70) {
            ring.rotate_left(1);
        }
    }
    pair_up(from, to)
}

/// The same map on more pairs: rows are split on both sides until `target`
/// rows are there or no row can be split.
pub fn padded(rng: &mut Rng, shape: Shape, mut rows: Vec<Row>, target: usize) -> Vec<Row> {
    let target = target.min(MOST_PAIRS);
    while rows.len() + shape.n - 1 <= target {
        let open: Vec<usize> = (0..rows.len())
            .filter(|&index| rows[index].0.len() < MOST_DIGITS && rows[index].1.len() < MOST_DIGITS)
            .collect();
        if open.is_empty() {
            break;
        }
        let (from, to) = rows.swap_remove(*rng.pick(&open));
        for way in 1..=shape.n {
            rows.push((extended(&from, way), extended(&to, way)));
        }
    }
    rng.shuffle(&mut rows);
    rows
}

/// Splits some rows with the parts' images in another order, so that those
/// parts must not join again.
pub fn twisted(rng: &mut Rng, shape: Shape, mut rows: Vec<Row>) -> Vec<Row> {
    for _ in 0..rng.between(1, 4) {
        let index = rng.below(rows.len());
        let fits = rows[index].0.len() < MOST_DIGITS && rows[index].1.len() < MOST_DIGITS;
        if !fits || rows.len() + shape.n - 1 > MOST_PAIRS {
            continue;
        }
        let (from, to) = rows.swap_remove(index);
        for (way, image) in (1..).zip(turned_ways(rng, shape.n)) {
            rows.push((extended(&from, way), extended(&to, image)));
        }
    }
    rows
}

#[cfg(test)]
mod tests {
    use super::*;

    #[test]
    fn rings_come_back_after_their_size() {
        let mut rng = Rng::new(13);
        let shape = Shape { n: 3, r: 2 };
        let words = basis(&mut rng, shape, 8);
        let rows = rings(&mut rng, &words, 3);
        let step = |word: &Word| rows.iter().find(|row| &row.0 == word).unwrap().1.clone();
        assert!(words.iter().all(|word| step(&step(&step(word))) == *word));
        assert!(words.iter().any(|word| step(word) != *word));
    }

    #[test]
    fn a_padded_plan_sends_codes_to_the_same_place() {
        let mut rng = Rng::new(14);
        let shape = Shape { n: 2, r: 2 };
        let rows = any_plan(&mut rng, shape, 4);
        let more = padded(&mut rng, shape, rows.clone(), 60);
        assert_eq!(more.len(), 60);
        for (from, to) in &more {
            let (start, image) = rows.iter().find(|row| from.starts_with(&row.0)).unwrap();
            assert_eq!(*to, [image.as_slice(), &from[start.len()..]].concat());
        }
    }
}
