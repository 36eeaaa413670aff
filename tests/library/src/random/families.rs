//! Families of plans whose products and powers come close to the limits of 128
//! pairs and 16 digits from both sides. The answers are left to whoever is
//! asked; these are only places where a wrong limit would show.

use reference::{Shape, Word, PAIRS};

use super::bases::even_basis;
use super::plans::{identity, split_row};
use super::Rng;
use crate::packed::Row;

/// The paper's ψ for any shape: the last splits are of way 1 on one side and of
/// the last way on the other, paired in order. Its power k has k + 1 ways.
pub fn shift(shape: Shape) -> Vec<Row> {
    shifted(shape, b"1", b"1").chain(still(shape)).collect()
}

/// The belts after the first, which stay where they are.
fn still(shape: Shape) -> impl Iterator<Item = Row> {
    identity(shape).into_iter().skip(1)
}

/// The rows of ψ from behind one word to behind another.
fn shifted(shape: Shape, block: &[u8], goal: &[u8]) -> impl Iterator<Item = Row> {
    let mut from = shape.parts(block);
    let mut to = shape.parts(goal);
    let first = from.remove(0);
    from.splice(0..0, shape.parts(&first));
    let last = to.pop().expect("a shape has two ways or more");
    to.extend(shape.parts(&last));
    from.into_iter().zip(to)
}

/// The words of a basis moved round in one ring, with ψ at one of them: powers
/// grow by a pair in a step or so, much more slowly than those of ψ.
pub fn slow_ring(rng: &mut Rng, shape: Shape, splits: usize) -> Vec<Row> {
    let words = even_basis(rng, shape, splits);
    let mut rows: Vec<Row> = words
        .windows(2)
        .map(|w| (w[0].clone(), w[1].clone()))
        .collect();
    let (first, last) = (&words[0], &words[words.len() - 1]);
    rows.extend(shifted(shape, last, first));
    rows
}

/// Behind each of these words, way 1 goes to way 2 and so on, and the parts of
/// the last way go to those of way 1 with two exchanged. Its powers need up to
/// n times n pairs behind a word and then fewer again, so that a power may be
/// within the limits when one before it isn't.
pub fn turning(shape: Shape, words: &[Word]) -> Vec<Row> {
    let mut rows = Vec::new();
    for word in words {
        let from = shape.parts(word);
        let mut to = from.clone();
        to.rotate_left(1);
        rows.extend(from.into_iter().zip(to));
        let last = rows.len() - 1;
        split_row(&mut rows, last, shape, true);
    }
    rows
}

/// The parts of the first belt go to the first n belts, in order, and the other
/// belts to the rest: n pairs that would join into one if the empty word were a word
/// "of at least a belt". Nothing where there aren't more belts than ways.
pub fn to_belts(shape: Shape) -> Option<Vec<Row>> {
    let (ways, belts) = (usize::from(shape.arity), shape.belts());
    let rest = belts.get(ways..)?;
    let (last, between) = rest.split_last()?;
    let from = [&shape.parts(&belts[0])[..], &belts[1..]].concat();
    let to = [&belts[..ways], between, &shape.parts(last)].concat();
    Some(from.into_iter().zip(to).collect())
}

/// A basis, of which plans twist some words and leave the others alone. One
/// after the other of two such plans needs rows for the words that either
/// twists, and the result only for those that one alone twists.
pub struct Twists {
    shape: Shape,
    words: Vec<Word>,
}

impl Twists {
    pub fn new(rng: &mut Rng, shape: Shape, splits: usize) -> Twists {
        let words = even_basis(rng, shape, splits);
        Twists { shape, words }
    }

    /// How many words a plan can twist before it has too many pairs.
    pub fn most(&self) -> usize {
        let room = PAIRS - self.words.len();
        (room / usize::from(self.shape.arity - 1)).min(self.words.len())
    }

    /// The plan that twists `count` words from this place on, going round.
    pub fn plan(&self, start: usize, count: usize) -> Vec<Row> {
        let mut words = self.words.clone();
        words.rotate_left(start % self.words.len());
        let mut rows: Vec<Row> = words.iter().cloned().zip(words.clone()).collect();
        for index in (0..count).rev() {
            split_row(&mut rows, index, self.shape, true);
        }
        rows
    }

    pub fn words(&self) -> usize {
        self.words.len()
    }
}

#[cfg(test)]
mod tests {
    use super::*;
    use crate::random::bases::{every_shape, splits_within};
    use reference::Plan;

    #[test]
    fn every_family_gives_plans() {
        let mut rng = Rng::new(2);
        for shape in every_shape() {
            let few = &shape.belts()[..1];
            let twists = Twists::new(&mut rng, shape, splits_within(shape, 60));
            let belts = to_belts(shape);
            assert_eq!(belts.is_some(), shape.roots > shape.arity);
            let plans = [
                belts.unwrap_or_else(|| identity(shape)),
                shift(shape),
                slow_ring(&mut rng, shape, 1),
                turning(shape, few)
                    .into_iter()
                    .chain(still(shape))
                    .collect(),
                twists.plan(3, twists.most()),
            ];
            for rows in plans {
                assert!(Plan::keep(shape, &rows).is_ok(), "{shape:?} {rows:?}");
            }
        }
    }

    #[test]
    fn parts_of_a_belt_that_go_to_belts() {
        let rows = to_belts(Shape { arity: 2, roots: 3 });
        let typed = [("11", "1"), ("12", "2"), ("2", "31"), ("3", "32")];
        let typed = typed.map(|(from, to)| (from.into(), to.into()));
        assert_eq!(rows, Some(typed.to_vec()));
    }

    #[test]
    fn the_shift_of_one_belt_and_two_ways_is_psi() {
        let rows = shift(Shape { arity: 2, roots: 1 });
        let typed = [("111", "11"), ("112", "121"), ("12", "122")];
        let psi = typed.map(|(from, to)| (from.as_bytes().to_vec(), to.as_bytes().to_vec()));
        assert_eq!(rows, psi);
    }
}
