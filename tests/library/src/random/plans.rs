//! Random plans as rows of words, both columns bases: any pairing of two bases,
//! pairings in order, permutations of one basis, and plans written on more
//! pairs than they need. Families whose products and powers come close to the
//! limits are in `families`.

use reference::{Plan, Shape, Word, PAIRS, WORD_DIGITS};

use super::bases::{basis, even_basis, some_splits, splits_within};
use super::Rng;
use crate::packed::Row;

/// A plan of the shape of any kind, its rows in any order.
pub fn rows(rng: &mut Rng, shape: Shape) -> Vec<Row> {
    let splits = some_splits(rng, shape);
    let mut rows = match rng.below(10) {
        0..=3 => paired(rng, shape, splits),
        4 => ordered(rng, shape, splits),
        5 | 6 => {
            let words = basis(rng, shape, splits);
            permuted(rng, &words)
        }
        7 => rings(rng, shape, splits),
        _ => padded(rng, shape),
    };
    rng.shuffle(&mut rows);
    rows
}

/// Some kept plan of the shape.
pub fn plan(rng: &mut Rng, shape: Shape) -> Plan {
    kept(shape, &rows(rng, shape))
}

/// The kept plan of rows that are known to be two bases.
pub fn kept(shape: Shape, rows: &[Row]) -> Plan {
    Plan::keep(shape, rows).expect("two bases within the limits")
}

/// Two bases of equally many words, paired by chance.
pub fn paired(rng: &mut Rng, shape: Shape, splits: usize) -> Vec<Row> {
    let from = basis(rng, shape, splits);
    let mut to = basis(rng, shape, splits);
    rng.shuffle(&mut to);
    from.into_iter().zip(to).collect()
}

/// Two bases paired in the order of their words: powers of this mostly grow.
pub fn ordered(rng: &mut Rng, shape: Shape, splits: usize) -> Vec<Row> {
    let mut from = even_basis(rng, shape, splits);
    let mut to = even_basis(rng, shape, splits);
    from.sort();
    to.sort();
    from.into_iter().zip(to).collect()
}

/// The words of one basis sent to each other by chance.
pub fn permuted(rng: &mut Rng, words: &[Word]) -> Vec<Row> {
    let mut to = words.to_vec();
    rng.shuffle(&mut to);
    words.iter().cloned().zip(to).collect()
}

/// The words of one basis moved round in rings of two to four.
pub fn rings(rng: &mut Rng, shape: Shape, splits: usize) -> Vec<Row> {
    let mut from = basis(rng, shape, splits);
    rng.shuffle(&mut from);
    let mut to = from.clone();
    for ring in to.chunks_exact_mut(rng.between(2, 4)) {
        ring.rotate_left(1);
    }
    from.into_iter().zip(to).collect()
}

/// A plan of few pairs written on many, by splitting rows on both sides; some
/// rows are split with two images exchanged, so that they must not join.
pub fn padded(rng: &mut Rng, shape: Shape) -> Vec<Row> {
    let splits = rng.below(splits_within(shape, 40).min(5) + 1);
    let mut rows = match rng.below(3) {
        0 => identity(shape),
        _ => paired(rng, shape, splits),
    };
    let most = rng.between(1, PAIRS);
    for _ in 0..splits_within(shape, most) {
        let index = rng.below(rows.len());
        let twisted = rng.chance(5);
        if rows.len() + usize::from(shape.arity) - 1 <= most {
            split_row(&mut rows, index, shape, twisted);
        }
    }
    rows
}

/// "0 is the plan that moves nothing (each belt to itself)".
pub fn identity(shape: Shape) -> Vec<Row> {
    shape.belts().into_iter().zip(shape.belts()).collect()
}

/// Splits a row into the rows of its parts, if they are short enough; the last
/// two images are exchanged if it is to be twisted.
pub fn split_row(rows: &mut Vec<Row>, index: usize, shape: Shape, twisted: bool) {
    let (from, to) = &rows[index];
    if from.len() == WORD_DIGITS || to.len() == WORD_DIGITS {
        return;
    }
    let (parts, mut images) = (shape.parts(from), shape.parts(to));
    if twisted {
        let last = images.len() - 1;
        images.swap(last - 1, last);
    }
    rows.swap_remove(index);
    rows.extend(parts.into_iter().zip(images));
}
