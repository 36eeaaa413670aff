//! Plans that show which digits were read. Every block along a path is split, so
//! that at each place of the path the digit decides which from-word begins a
//! code; and each from-word goes to the next one, so that the image tells which
//! it was. Words stand here by the values of their digits.

use std::iter::once;

use reference::{Shape, WORD_DIGITS};

use crate::packed::Row;
use crate::random::bases::splits_within;
use crate::table::{self, Values};
use crate::values::Plan;

/// A pair (from, to).
pub type Pair = (Values, Values);

/// A path with every block along it split: the plan of the words that leave the
/// path and of its last word.
pub struct SplitPath {
    pub shape: Shape,
    /// The deepest from-word.
    pub path: Values,
    /// The pairs in order of the from-words. Nothing joins: where all parts of a
    /// block are from-words, its way 1 goes to its way 2.
    pub pairs: Vec<Pair>,
}

impl SplitPath {
    /// The plan along this path.
    pub fn along(shape: Shape, path: &[u8]) -> SplitPath {
        let mut from = others(shape.roots, path, 0);
        for place in 1..path.len() {
            from.extend(others(shape.arity, path, place));
        }
        from.push(path.to_vec());
        from.sort();
        let mut to = from.clone();
        to.rotate_left(1);
        SplitPath {
            shape,
            path: path.to_vec(),
            pairs: from.into_iter().zip(to).collect(),
        }
    }

    /// The plan along digits in turn, as deep as words may be or as so many pairs
    /// allow.
    pub fn within(shape: Shape, pairs: usize) -> SplitPath {
        let deepest = 1 + splits_within(shape, pairs);
        SplitPath::along(shape, &digits_in_turn(shape, deepest.min(WORD_DIGITS)))
    }

    /// The pair whose from-word begins these digits, and its place, counted from 1.
    pub fn pair_beginning(&self, digits: &[u8]) -> Option<(usize, &Pair)> {
        let mut pairs = (1..).zip(&self.pairs);
        pairs.find(|(_, (from, _))| digits.starts_with(from))
    }

    /// The pairs as they are typed.
    pub fn typed(&self) -> Vec<Row> {
        let pairs = self.pairs.iter();
        pairs
            .map(|(from, to)| (table::written(from), table::written(to)))
            .collect()
    }

    /// The plan as the library has it.
    pub fn value(&self) -> Plan {
        let mut value = Plan {
            arity: self.shape.arity,
            roots: self.shape.roots,
            pairs: self.pairs.len(),
            ..Plan::ZERO
        };
        for (place, (from, to)) in self.pairs.iter().enumerate() {
            value.from[place] = table::packed(from);
            value.to[place] = table::packed(to);
        }
        value
    }
}

/// The words that leave the path at this place, where digits go up to `most`.
fn others(most: u8, path: &[u8], place: usize) -> Vec<Values> {
    let digits = (1..=most).filter(|digit| *digit != path[place]);
    digits
        .map(|digit| [&path[..place], &[digit]].concat())
        .collect()
}

/// So many digits of the shape: a belt that isn't the same for all shapes, and
/// then each of the ways in turn, again and again, so that neighbours differ.
pub fn digits_in_turn(shape: Shape, length: usize) -> Values {
    let belt = shape.arity % shape.roots;
    let ways = (shape.roots..shape.roots + shape.arity).map(|way| way % shape.arity);
    let digits = once(belt).chain(ways.cycle());
    digits.take(length).map(|digit| digit + 1).collect()
}

#[cfg(test)]
mod tests {
    use super::*;
    use crate::packed::plan_value;
    use crate::random::bases::every_shape;
    use crate::random::plans;
    use reference::PAIRS;

    #[test]
    fn a_split_path_by_hand() {
        let split = SplitPath::along(Shape { arity: 2, roots: 2 }, &[2, 1, 1]);
        let typed = [("1", "211"), ("211", "212"), ("212", "22"), ("22", "1")];
        let typed = typed.map(|(from, to)| (from.into(), to.into()));
        assert_eq!(split.typed(), typed);
        let shape = Shape { arity: 3, roots: 2 };
        assert_eq!(digits_in_turn(shape, 6), [2, 3, 1, 2, 3, 1]);
    }

    /// They are kept as they stand, reduced and in order, and nearly all have
    /// words of 16 digits; 9 belts and 15 splits by 9 ways are 129 words.
    #[test]
    fn split_paths_are_kept_plans() {
        for shape in every_shape() {
            let split = SplitPath::within(shape, PAIRS);
            let kept = plans::kept(shape, &split.typed());
            assert_eq!(plan_value(&kept), split.value());
            let missing = usize::from(shape == Shape { arity: 9, roots: 9 });
            assert_eq!(split.path.len(), WORD_DIGITS - missing);
        }
    }
}
