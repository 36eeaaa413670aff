//! Bases, joins and common expansions on random columns of all shapes, held
//! against facts that are worked out in another way: the sizes of expansions
//! and the sum of n to the power of minus the ways over a column.

use std::collections::BTreeSet;

use reference::basis::column_flaw;
use reference::maps::{self, Pairs};
use reference::{Fault, Flaw, Plan, Refusal, Shape, Side, Word, WORD_DIGITS};

use crate::random::{shapes, Random};

/// The flaw of a column by counting: words in order show an overlap between
/// neighbours, and without overlap the blocks under a belt fill it exactly if
/// their measures add up to that of the belt.
fn flaw_by_measure(shape: Shape, column: &[Word]) -> Option<Flaw> {
    let mut sorted = column.to_vec();
    sorted.sort();
    if sorted.windows(2).any(|w| w[1].starts_with(&w[0])) {
        return Some(Flaw::Overlap);
    }
    let arity = u128::from(shape.arity);
    let measure = |word: &Word| arity.pow((WORD_DIGITS - word.len()) as u32);
    let full = arity.pow((WORD_DIGITS - 1) as u32);
    let filled = shape.belts().iter().all(|belt| {
        let under = column.iter().filter(|word| word.starts_with(belt));
        under.map(measure).sum::<u128>() == full
    });
    (!filled).then_some(Flaw::Gap)
}

/// Harms a column in one of several ways, or leaves it.
fn harm(random: &mut Random, shape: Shape, column: &mut Vec<Word>) {
    let place = random.below(column.len());
    let word = column[place].clone();
    match random.below(7) {
        0 => {
            column.swap_remove(place);
        }
        1 => column.push(word),
        2 => column[place].truncate(1 + random.below(word.len())),
        3 if word.len() < WORD_DIGITS => column[place].extend(random.ways(shape, 1)),
        4 => {
            column[place] = random.code(shape, word.len());
        }
        5 if word.len() < WORD_DIGITS => {
            column.swap_remove(place);
            column.extend(shape.parts(&word));
        }
        _ => {}
    }
}

#[test]
fn bases_by_definition_and_by_measure() {
    let mut random = Random::new(1);
    let (mut sound, mut overlap, mut gap) = (0, 0, 0);
    for shape in shapes() {
        for _ in 0..60 {
            let expansions = random.expansions(shape, 60);
            let mut column = random.basis(shape, expansions);
            assert_eq!(column_flaw(shape, &column), None);
            for _ in 0..random.below(3) {
                harm(&mut random, shape, &mut column);
                if column.is_empty() {
                    break;
                }
            }
            let flaw = column_flaw(shape, &column);
            assert_eq!(flaw, flaw_by_measure(shape, &column), "{column:?}");
            match flaw {
                None => sound += 1,
                Some(Flaw::Overlap) => overlap += 1,
                Some(Flaw::Gap) => gap += 1,
            }
        }
    }
    assert!(
        sound > 500 && overlap > 500 && gap > 500,
        "{sound} {overlap} {gap}"
    );
}

/// "Every d-fold expansion of Y has |Y| + (n−1)d elements" (document 004).
#[test]
fn sizes_of_bases() {
    let mut random = Random::new(2);
    let mut larger = 0;
    for shape in shapes() {
        let (n, r) = (usize::from(shape.arity), usize::from(shape.roots));
        for _ in 0..20 {
            let d = random.expansions(shape, 128);
            assert_eq!(random.basis(shape, d).len(), r + d * (n - 1));
            let size = random.size();
            let plan = random.plan(shape, size);
            assert_eq!((plan.size() - r) % (n - 1), 0);
            larger += usize::from(plan.size() > r);
        }
    }
    assert!(larger > 500);
}

/// The common expansion is a basis, expands both columns, and is the smallest
/// one: each of its words stands in one of the columns.
#[test]
fn common_expansions() {
    let mut random = Random::new(3);
    let mut proper = 0;
    for shape in shapes() {
        for _ in 0..10 {
            let left = random.plan(shape, 60);
            let right = random.plan(shape, 60);
            let common = maps::common_expansion(left.pairs(), right.pairs());
            let column: Vec<Word> = common.iter().cloned().collect();
            assert_eq!(flaw_by_measure(shape, &column), None);
            for word in &common {
                assert!(begins_one(left.pairs(), word) && begins_one(right.pairs(), word));
                assert!(left.pairs().contains_key(word) || right.pairs().contains_key(word));
            }
            proper += usize::from(common.len() > left.size().max(right.size()));
        }
    }
    assert!(proper > 100);
}

fn begins_one(pairs: &Pairs, word: &Word) -> bool {
    pairs.keys().any(|from| word.starts_with(from))
}

/// One join at a time, each time any of those possible.
fn reduce_at_random(random: &mut Random, shape: Shape, mut pairs: Pairs) -> Pairs {
    loop {
        let possible = maps::joins(shape, &pairs);
        if possible.is_empty() {
            return pairs;
        }
        let (block, goal) = random.pick(&possible).clone();
        maps::join(shape, &mut pairs, block, goal);
    }
}

#[test]
fn joins_in_any_order() {
    let mut random = Random::new(4);
    let (mut joined, mut unjoined) = (0, 0);
    for shape in shapes() {
        for _ in 0..20 {
            let typed = random.typed(shape, 100);
            let pairs: Pairs = typed.iter().cloned().collect();
            let plan = Plan::keep(shape, &typed).expect("a plan");
            for _ in 0..3 {
                let reduced = reduce_at_random(&mut random, shape, pairs.clone());
                assert_eq!(&reduced, plan.pairs());
            }
            assert!(maps::act_alike(&pairs, plan.pairs()));
            if plan.size() < typed.len() {
                joined += 1;
            } else {
                unjoined += 1;
            }
        }
    }
    assert!(joined > 300 && unjoined > 300);
}

/// A reduced plan is on the minimal expansion: no block above a from-word has
/// one word as its image, and the images of its parts show it.
#[test]
fn kept_plans_are_minimal() {
    let mut random = Random::new(5);
    let mut blocks = 0;
    for shape in shapes() {
        for _ in 0..6 {
            let plan = random.plan(shape, 60);
            for block in blocks_above(&plan) {
                assert!(!goes_to_one_word(shape, &plan, &block));
                blocks += 1;
            }
        }
    }
    assert!(blocks > 1000);
}

fn blocks_above(plan: &Plan) -> BTreeSet<Word> {
    let beginnings = |from: &Word| (1..from.len()).map(|l| from[..l].to_vec()).collect();
    plan.pairs()
        .keys()
        .flat_map(|from| -> Vec<Word> { beginnings(from) })
        .collect()
}

/// Whether there is a v such that every code below the block goes to v with
/// its tail. Such a v is found from the first code below the block.
fn goes_to_one_word(shape: Shape, plan: &Plan, block: &Word) -> bool {
    let tail = vec![b'1'; WORD_DIGITS];
    let first = plan.image(&[block.clone(), tail.clone()].concat()).unwrap();
    let Some(goal) = first.strip_suffix(tail.as_slice()) else {
        return false;
    };
    shape.is_code(goal)
        && plan.pairs().iter().all(|(from, to)| {
            let below = from.strip_prefix(block.as_slice());
            below.is_none_or(|rest| *to == [goal, rest].concat())
        })
}

/// `keep` and `recognise` on pairs as typed: refused ones, reduced ones, and
/// those that are a plan but not as kept.
#[test]
fn verdicts_and_recognition() {
    let mut random = Random::new(6);
    let (mut known, mut unknown, mut faults) = (0, 0, [0; 4]);
    for shape in shapes() {
        for _ in 0..20 {
            let mut typed = random.typed(shape, 40);
            if random.one_in(2) {
                typed.sort();
            }
            let plan = Plan::keep(shape, &typed).expect("a plan");
            let recognised = Plan::recognise(shape, &typed);
            assert_eq!(recognised.is_some(), plan.pair_list() == typed);
            known += usize::from(recognised.is_some());
            unknown += usize::from(recognised.is_none());
            assert_eq!(Plan::recognise(shape, &plan.pair_list()), Some(plan));
            let kind = spoiled_verdict(&mut random, shape, &typed);
            faults[kind] += 1;
        }
    }
    assert!(known > 50 && unknown > 50, "{known} {unknown}");
    assert!(faults.iter().all(|f| *f > 50), "{faults:?}");
}

/// Spoils one column and asserts that exactly this is said; gives which of
/// the four faults it was.
fn spoiled_verdict(random: &mut Random, shape: Shape, typed: &[(Word, Word)]) -> usize {
    let (mut from, mut to): (Vec<Word>, Vec<Word>) = typed.iter().cloned().unzip();
    let side = *random.pick(&[Side::From, Side::To]);
    let column = match side {
        Side::From => &mut from,
        Side::To => &mut to,
    };
    let flaw = if column.len() > 1 && random.one_in(2) {
        column[0] = column[1].clone();
        Flaw::Overlap
    } else {
        let part = shape.parts(&column[0]).swap_remove(0);
        column[0] = part;
        Flaw::Gap
    };
    let spoiled: Vec<(Word, Word)> = from.into_iter().zip(to).collect();
    let fault = Fault { side, flaw };
    if spoiled
        .iter()
        .any(|(f, t)| f.len().max(t.len()) > WORD_DIGITS)
    {
        assert_eq!(Plan::keep(shape, &spoiled), Err(Refusal::BadWord));
    } else {
        assert_eq!(Plan::verdict(shape, &spoiled), Err(fault));
        assert_eq!(Plan::keep(shape, &spoiled), Err(Refusal::Column(fault)));
    }
    usize::from(side == Side::To) * 2 + usize::from(flaw == Flaw::Gap)
}
