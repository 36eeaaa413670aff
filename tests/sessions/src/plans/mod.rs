//! Real plans for the sessions: pairs of columns that are bases of one shape.
//! The kinds of plan differ in how far they reduce, how deep they go and what
//! their powers do; here one of them is chosen. Words come first (`words`),
//! then bases (`bases`), then the kinds (`kinds`, `turning`, `near_miss`).

mod bases;
#[cfg(test)]
mod check;
mod kinds;
mod near_miss;
mod turning;
mod words;

pub use bases::{basis, some_splits};
pub use kinds::{any_plan, deep_plan, padded, permutation, rings};
pub use near_miss::near_miss;
pub use turning::{turning_plan, turning_splits, Blocks};
pub use words::{any_shape, digit, random_code, wrong_digit};
pub use words::{Row, Shape, Word, MOST_EXERCISED, MOST_PAIRS};

use crate::rng::Rng;
use kinds::{growing_plan, identity, twisted};

/// Some plan of the shape, of any of the kinds, its rows in any order.
pub fn some_plan(rng: &mut Rng, shape: Shape) -> Vec<Row> {
    let mut rows = match rng.below(12) {
        0..=3 => {
            let splits = some_splits(rng, shape);
            any_plan(rng, shape, splits)
        }
        4 => growing_plan(rng, shape, 1),
        5 => {
            let splits = some_splits(rng, shape);
            growing_plan(rng, shape, splits)
        }
        6 | 7 => some_permutation(rng, shape),
        8 => {
            let splits = rng.below(turning_splits(shape) + 1);
            turning_plan(rng, shape, splits).rows
        }
        _ => some_padded_plan(rng, shape),
    };
    rng.shuffle(&mut rows);
    rows
}

fn some_permutation(rng: &mut Rng, shape: Shape) -> Vec<Row> {
    let splits = some_splits(rng, shape);
    let words = basis(rng, shape, splits);
    let size = rng.between(2, 4);
    if rng.chance(40) {
        permutation(rng, &words)
    } else {
        rings(rng, &words, size)
    }
}

/// A plan of few pairs written on many, with and without parts that must not
/// join.
fn some_padded_plan(rng: &mut Rng, shape: Shape) -> Vec<Row> {
    let splits = rng.below(shape.most_splits().min(5) + 1);
    let mut rows = if rng.chance(30) {
        identity(shape)
    } else {
        any_plan(rng, shape, splits)
    };
    if rng.chance(50) {
        rows = twisted(rng, shape, rows);
    }
    let target = rng.between(1, MOST_PAIRS);
    padded(rng, shape, rows, target)
}

#[cfg(test)]
mod tests {
    use super::check::{columns, every_shape, is_basis};
    use super::words::MOST_DIGITS;
    use super::*;

    #[test]
    fn every_plan_is_two_bases_within_the_limits() {
        let mut rng = Rng::new(11);
        for shape in every_shape() {
            for turn in 0..25 {
                let rows = match turn {
                    0 => deep_plan(&mut rng, shape),
                    _ => some_plan(&mut rng, shape),
                };
                let (from, to) = columns(&rows);
                assert!(rows.len() <= MOST_PAIRS);
                assert!(from.iter().chain(&to).all(|word| word.len() <= MOST_DIGITS));
                assert!(is_basis(shape, &from), "{shape:?} {from:?}");
                assert!(is_basis(shape, &to), "{shape:?} {to:?}");
            }
        }
    }

    #[test]
    fn the_limits_are_reached() {
        let mut rng = Rng::new(12);
        let shape = Shape { n: 2, r: 1 };
        let plans: Vec<Vec<Row>> = (0..300).map(|_| some_plan(&mut rng, shape)).collect();
        assert!(plans.iter().any(|rows| rows.len() == MOST_PAIRS));
        assert!(plans
            .iter()
            .any(|rows| rows.iter().any(|(from, _)| from.len() == MOST_DIGITS)));
        assert!(plans.iter().any(|rows| rows.len() == 1));
    }
}
