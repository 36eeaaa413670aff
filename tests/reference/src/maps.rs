//! Maps between bases, without any limit of size: the group of document 004
//! before the desk's limits are laid on it. A map is an ordered table from the
//! words of one basis to the words of another; it is composed by way of the
//! common expansion and reduced by joins until none is left.

use std::collections::{BTreeMap, BTreeSet};
use std::ops::Bound;

use crate::words::{digit, Shape, Word};

/// The pairs (from, to) of a map, in order of the from-words. The from-words
/// are a basis, and so are the to-words.
pub type Pairs = BTreeMap<Word, Word>;

/// The map that moves nothing, each belt to itself.
pub fn identity(shape: Shape) -> Pairs {
    let belts = shape.belts().into_iter();
    belts.map(|belt| (belt.clone(), belt)).collect()
}

/// The map read from right to left.
pub fn inverse(pairs: &Pairs) -> Pairs {
    let swapped = pairs.iter().map(|(from, to)| (to.clone(), from.clone()));
    swapped.collect()
}

/// The pair whose from-word begins the code, if there is one.
///
/// It is enough to look at the last from-word not behind the code: a word
/// standing in order between a beginning of the code and the code itself
/// would begin with that beginning, and no from-word begins another.
pub fn pair_beginning<'a>(pairs: &'a Pairs, code: &[u8]) -> Option<(&'a Word, &'a Word)> {
    let not_behind = (Bound::Unbounded, Bound::Included(code));
    let last = pairs.range::<[u8], _>(not_behind).next_back();
    last.filter(|(from, _)| code.starts_with(from))
}

/// The place of the pair with this from-word, "counted from 1" in the order of the
/// from-words: how many of them are not behind it.
pub fn place(pairs: &Pairs, from: &[u8]) -> usize {
    let not_behind = (Bound::Unbounded, Bound::Included(from));
    pairs.range::<[u8], _>(not_behind).count()
}

/// "A code that begins with a from-word goes to the paired to-word followed by
/// the tail." Nothing if no from-word begins the code.
pub fn image(pairs: &Pairs, code: &[u8]) -> Option<Word> {
    let (from, to) = pair_beginning(pairs, code)?;
    Some([to, &code[from.len()..]].concat())
}

/// The pairs whose from-words properly extend the code, in order. Where no
/// from-word begins the code, the block below it is covered by them.
pub fn pairs_extending<'a>(
    pairs: &'a Pairs,
    code: &'a [u8],
) -> impl Iterator<Item = (&'a Word, &'a Word)> {
    pairs
        .iter()
        .filter(|(from, _)| from.len() > code.len() && from.starts_with(code))
}

/// The minimal common expansion of the two from-columns (document 004,
/// Corollary 3.17): the words of each that begin with a word of the other.
pub fn common_expansion(left: &Pairs, right: &Pairs) -> BTreeSet<Word> {
    let lefts = left.keys().filter(|w| pair_beginning(right, w).is_some());
    let rights = right.keys().filter(|w| pair_beginning(left, w).is_some());
    lefts.chain(rights).cloned().collect()
}

/// `first` then `second`, not reduced. Each word of the common expansion of
/// the to-words of `first` and the from-words of `second` is traced back
/// through `first` and on through `second`.
pub fn then(first: &Pairs, second: &Pairs) -> Pairs {
    let back = inverse(first);
    let middle = common_expansion(&back, second);
    let traced = middle.iter().map(|word| {
        let from = image(&back, word).expect("the middle expands the to-words of first");
        let to = image(second, word).expect("the middle expands the from-words of second");
        (from, to)
    });
    traced.collect()
}

/// Whether two maps act alike: they do if they agree on the common expansion
/// of their from-words (document 004, Lemma 3.20).
pub fn act_alike(left: &Pairs, right: &Pairs) -> bool {
    common_expansion(left, right)
        .iter()
        .all(|word| image(left, word) == image(right, word))
}

/// All joins (w, v) that are possible now. No two of them share a pair.
pub fn joins(shape: Shape, pairs: &Pairs) -> Vec<(Word, Word)> {
    let firsts = pairs.iter().filter_map(|(from, to)| {
        let block = without_way_one(from)?;
        let goal = without_way_one(to)?;
        Some((block, goal))
    });
    firsts
        .filter(|(block, goal)| parts_correspond(shape, pairs, block, goal))
        .map(|(block, goal)| (block.to_vec(), goal.to_vec()))
        .collect()
}

/// "If n pairs have from-words w1, w2, .., wn and to-words v1, v2, .., vn in
/// the same order, w and v being words of at least a belt, they join into
/// (w, v)."
pub fn join(shape: Shape, pairs: &mut Pairs, block: Word, goal: Word) {
    for part in shape.parts(&block) {
        pairs.remove(&part);
    }
    pairs.insert(block, goal);
}

/// "A plan is reduced when no join is possible": joins as long as there are
/// any. It doesn't depend on which join came first.
pub fn reduce(shape: Shape, mut pairs: Pairs) -> Pairs {
    loop {
        let possible = joins(shape, &pairs);
        if possible.is_empty() {
            return pairs;
        }
        for (block, goal) in possible {
            join(shape, &mut pairs, block, goal);
        }
    }
}

/// The w of a word w1, if w is "of at least a belt".
fn without_way_one(word: &[u8]) -> Option<&[u8]> {
    match word.split_last() {
        Some((last, block)) if *last == digit(1) && !block.is_empty() => Some(block),
        _ => None,
    }
}

/// Whether the parts of `block` are all from-words and go to the parts of
/// `goal` in the same order.
fn parts_correspond(shape: Shape, pairs: &Pairs, block: &[u8], goal: &[u8]) -> bool {
    let mut parts = shape.parts(block).into_iter().zip(shape.parts(goal));
    parts.all(|(part, aim)| pairs.get(&part) == Some(&aim))
}
