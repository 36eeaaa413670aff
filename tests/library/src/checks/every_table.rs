//! Every small table beside small plans (E10). Each basis of a shape, up to some
//! size, is tried as a from column: it carries the action of a plan exactly where
//! its words each begin with a listed from-word, so that none with fewer words
//! does. Shorter tables are shown where a condition of E10 is left out.

use std::collections::BTreeMap;

use reference::tables::{bases, from_is_basis, on_column, telling_code};
use reference::{Shape, Word};

use super::tables::listing;
use super::tally::Tally;
use crate::calls::Calls;
use crate::listed::Listed;
use crate::packed::{value, Row};
use crate::random::bases::every_shape;
use crate::random::families::to_belts;
use crate::random::{plans, Rng};

/// n and r, the most splits of the plans, all of which are tried, and the most
/// splits of the bases that are tried with each.
const EVERY_PLAN: [([u8; 2], usize, usize); 7] = [
    ([2, 1], 3, 6),
    ([2, 1], 4, 5),
    ([2, 2], 2, 5),
    ([3, 1], 2, 4),
    ([2, 3], 2, 3),
    ([3, 2], 1, 4),
    ([4, 1], 1, 3),
];

/// The same where plans of just so many splits are too many to try them all.
const SOME_PLANS: [([u8; 2], usize, usize); 6] = [
    ([2, 1], 4, 7),
    ([2, 1], 5, 7),
    ([2, 2], 4, 6),
    ([3, 1], 3, 5),
    ([2, 3], 3, 5),
    ([3, 2], 2, 4),
];

/// Every plan of few splits with every basis.
pub fn beside_every_plan(calls: &dyn Calls) {
    let mut tally = Tally::default();
    for ([arity, roots], most, splits) in EVERY_PLAN {
        let shape = Shape { arity, roots };
        let drafts = (0..=most).flat_map(|splits| every_draft(shape, splits));
        beside(calls, shape, drafts, splits, &mut tally);
    }
    demand(&tally);
    tally.demand(20, &["shorter with an empty to-word"]);
}

/// Some plans of more splits with every basis.
pub fn beside_some_plans(calls: &dyn Calls) {
    let mut rng = Rng::new(711);
    let mut tally = Tally::default();
    for ([arity, roots], splits, most) in SOME_PLANS {
        let shape = Shape { arity, roots };
        let drafts = (0..150).map(|_| plans::paired(&mut rng, shape, splits));
        beside(calls, shape, drafts, most, &mut tally);
    }
    demand(&tally);
}

fn demand(tally: &Tally) {
    tally.demand(400, &["a plan", "the listing"]);
    tally.demand(
        5000,
        &[
            "fewer words, none",
            "as many, none",
            "more words, none",
            "more words, a table",
        ],
    );
}

/// Every pairing of two bases of so many splits.
fn every_draft(shape: Shape, splits: usize) -> impl Iterator<Item = Vec<Row>> {
    let columns = bases(shape, splits);
    let goals: Vec<Vec<Word>> = columns.iter().flat_map(|words| orders(words)).collect();
    columns.into_iter().flat_map(move |from| {
        let paired = goals.clone().into_iter();
        paired.map(move |to| from.iter().cloned().zip(to).collect())
    })
}

/// The words in every order.
fn orders(words: &[Word]) -> Vec<Vec<Word>> {
    if words.is_empty() {
        return vec![vec![]];
    }
    let firsts = 0..words.len();
    let all = firsts.flat_map(|place| {
        let mut others = words.to_vec();
        let first = others.remove(place);
        let orders = orders(&others).into_iter();
        orders.map(move |order| [vec![first.clone()], order].concat())
    });
    all.collect()
}

/// Lays every basis of up to so many splits beside the plan of each draft, plans
/// that are listed alike once.
fn beside(
    calls: &dyn Calls,
    shape: Shape,
    drafts: impl Iterator<Item = Vec<Row>>,
    splits: usize,
    tally: &mut Tally,
) {
    let mut plans: BTreeMap<Vec<Row>, Vec<Row>> = BTreeMap::new();
    for draft in drafts {
        let kept = calls.keep(&value(shape, &draft));
        assert_eq!(kept.number, 0, "keeping {draft:?}");
        let listed = listing(calls, &kept.plan);
        listed.assert_acts_as(&draft);
        plans.insert(listed.rows, draft);
    }
    let columns = (0..=splits).flat_map(|splits| bases(shape, splits));
    let columns: Vec<Vec<Word>> = columns.collect();
    for (rows, draft) in plans {
        let listed = Listed { shape, rows };
        tally.count("a plan");
        for column in &columns {
            try_column(&listed, &draft, column, tally);
        }
    }
}

/// A basis carries the action of the draft, with to-words of at least a belt,
/// exactly where its words each begin with a listed one.
fn try_column(listed: &Listed, draft: &[Row], column: &[Word], tally: &mut Tally) {
    let found = on_column(draft, column, 1);
    if let Some(table) = &found {
        listed.assert_acts_as(table);
        listed.assert_not_longer_than(table);
    }
    let listed_begins = |word: &Word| listed.rows.iter().any(|(from, _)| word.starts_with(from));
    let each_begins = column.iter().all(listed_begins);
    assert_eq!(
        found.is_some(),
        each_begins,
        "whether {column:?} carries the action of {listed}"
    );
    let kind = match (column.len().cmp(&listed.rows.len()), each_begins) {
        (std::cmp::Ordering::Less, _) => "fewer words, none",
        (std::cmp::Ordering::Equal, true) => "the listing",
        (std::cmp::Ordering::Equal, false) => "as many, none",
        (std::cmp::Ordering::Greater, true) => "more words, a table",
        (std::cmp::Ordering::Greater, false) => "more words, none",
    };
    tally.count(kind);
    if found.is_none() {
        count_empty(listed, draft, column, tally);
    }
}

/// Counts a shorter table that acts alike on this column with an empty to-word.
fn count_empty(listed: &Listed, draft: &[Row], column: &[Word], tally: &mut Tally) {
    if let Some(table) = on_column(draft, column, 0) {
        assert!(table.iter().any(|(_, to)| to.is_empty()));
        assert_eq!(telling_code(listed.shape, &listed.rows, &table), None);
        let shorter = table.len() < listed.rows.len();
        tally.count_if(shorter, "shorter with an empty to-word");
    }
}

/// Bases near the from-words of plans of every shape: a block above some of them in
/// their place, and then splits anywhere, so that there are fewer words, as many, or
/// more.
pub fn near_plans(calls: &dyn Calls) {
    let mut rng = Rng::new(713);
    let mut tally = Tally::default();
    for shape in every_shape() {
        for _ in 0..6 {
            let draft = plans::rows(&mut rng, shape);
            let kept = calls.keep(&value(shape, &draft));
            let listed = listing(calls, &kept.plan);
            listed.assert_acts_as(&draft);
            tally.count("a plan");
            for _ in 0..20 {
                let column = near_column(&mut rng, &listed);
                try_column(&listed, &draft, &column, &mut tally);
            }
        }
    }
    tally.demand(400, &["a plan", "the listing"]);
    tally.demand(400, &["fewer words, none", "as many, none"]);
    tally.demand(400, &["more words, none", "more words, a table"]);
}

/// The listed from-words with one of the words above in the place of those that
/// begin with it, mostly, and some of the words split.
fn near_column(rng: &mut Rng, listed: &Listed) -> Vec<Word> {
    let mut column: Vec<Word> = listed.rows.iter().map(|(from, _)| from.clone()).collect();
    let below = rng.pick(&column).clone();
    if below.len() > 1 && rng.chance(80) {
        let block = &below[..rng.between(1, below.len() - 1)];
        column.retain(|word| !word.starts_with(block));
        column.push(block.to_vec());
    }
    for _ in 0..rng.below(5) {
        // the block above, or the last of its parts, as often as any other
        let last = column.len() - 1;
        let any = rng.below(column.len());
        let place = *rng.pick(&[any, last]);
        let word = column.swap_remove(place);
        column.extend(listed.shape.parts(&word));
    }
    column
}

/// Plans of every shape with a pair left out, whose from-words are no basis, and
/// the parts of a belt that go to belts put together with an empty to-word: both
/// act alike on the codes that are long enough for both, and are shorter.
pub fn without_a_condition(calls: &dyn Calls) {
    let mut rng = Rng::new(712);
    let mut tally = Tally::default();
    for shape in every_shape() {
        let kept = calls.keep(&value(shape, &plans::rows(&mut rng, shape)));
        let listed = listing(calls, &kept.plan);
        for place in 0..listed.rows.len() {
            let mut table = listed.rows.clone();
            table.remove(place);
            assert!(!from_is_basis(shape, &table), "a word is missing");
            let told = telling_code(shape, &listed.rows, &table);
            assert_eq!(told, None, "without pair {place} of {listed}");
            tally.count("a pair left out");
        }
        if let Some(rows) = to_belts(shape) {
            let kept = calls.keep(&value(shape, &rows));
            let listed = listing(calls, &kept.plan);
            listed.assert_acts_as(&rows);
            let table = on_column(&rows, &shape.belts(), 0).expect("a table on the belts");
            assert!(table[0].1.is_empty() && from_is_basis(shape, &table));
            assert_eq!(telling_code(shape, &listed.rows, &table), None);
            assert_eq!(
                listed.rows.len() - table.len(),
                usize::from(shape.arity) - 1
            );
            assert_eq!(on_column(&rows, &shape.belts(), 1), None, "{listed}");
            tally.count("an empty to-word");
        }
    }
    tally.demand(1000, &["a pair left out"]);
    tally.demand(28, &["an empty to-word"]);
}
