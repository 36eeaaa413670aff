//! Verdict, keep and is-plan on drafts of every shape and on damaged values.
//! Drafts are unordered and often not reduced; kept plans are taken from the
//! second implementation and damaged in every way.

use reference::{Shape, PAIRS};

use super::tally::Tally;
use crate::calls::Calls;
use crate::packed::{plan_value, value};
use crate::random::bases::{every_shape, most_splits};
use crate::random::damage::{damaged, damaged_twice, random_value, with_damage, DAMAGES};
use crate::random::{plans, Rng};
use crate::second::Second;
use crate::values::{Plan, Verdict};

/// Random drafts of each shape, and each damaged a few times.
pub fn of_drafts(calls: &dyn Calls) {
    let mut rng = Rng::new(101);
    let mut tally = Tally::default();
    for shape in every_shape() {
        for _ in 0..40 {
            let draft = value(shape, &plans::rows(&mut rng, shape));
            compare(calls, &draft, &mut tally);
            for _ in 0..5 {
                compare(calls, &damaged(&mut rng, &draft), &mut tally);
                compare(calls, &damaged_twice(&mut rng, &draft), &mut tally);
            }
        }
        compare(calls, &full(&mut rng, shape), &mut tally);
        compare(calls, &value(shape, &[]), &mut tally);
    }
    tally.demand(50, &["0", "6F", "6T", "7F", "7T", "15"]);
    tally.demand(
        50,
        &["is a plan", "is no plan", "joined", "16 digits", "kept"],
    );
    tally.demand(20, &["128 pairs", "128 pairs kept"]);
    tally.demand(
        20,
        &[
            "6F, and 6 of T",
            "6F, and 7 of T",
            "7F, and 6 of T",
            "7F, and 7 of T",
        ],
    );
}

/// Kept plans with each damage: a plan, a draft that is no plan, or neither.
pub fn of_damaged_plans(calls: &dyn Calls) {
    let mut rng = Rng::new(102);
    let mut tally = Tally::default();
    for shape in every_shape() {
        for _ in 0..3 {
            let plan = plan_value(&plans::plan(&mut rng, shape));
            compare(calls, &plan, &mut tally);
            for damage in DAMAGES {
                let value = with_damage(&mut rng, &plan, damage);
                let answers = compare(calls, &value, &mut tally);
                tally.count_if(!answers.is_plan, &format!("{damage:?}"));
                tally.count_if(answers.draft && !answers.is_plan, "a draft and no plan");
            }
        }
    }
    tally.demand(20, &DAMAGES.map(|damage| format!("{damage:?}")));
    tally.demand(
        50,
        &["0", "6F", "6T", "7F", "7T", "15", "a draft and no plan"],
    );
}

/// Values of random bytes, all or some belts to themselves with any two bytes
/// for a shape, and far counts of an empty draft.
pub fn of_values(calls: &dyn Calls) {
    let mut rng = Rng::new(103);
    let mut tally = Tally::default();
    compare(calls, &Plan::ZERO, &mut tally);
    for _ in 0..2000 {
        compare(calls, &random_value(&mut rng), &mut tally);
    }
    for arity in 0..=255 {
        for roots in 0..=255 {
            let belts = plans::identity(Shape {
                arity: 2,
                roots: roots.min(9),
            });
            let shape = Shape { arity, roots };
            let few = &belts[..rng.below(belts.len() + 1)];
            compare(calls, &value(shape, &belts), &mut tally);
            compare(calls, &value(shape, few), &mut tally);
        }
    }
    for exponent in 0..usize::BITS {
        let mut value = value(Shape { arity: 2, roots: 1 }, &[]);
        for pairs in [1 << exponent, (1 << exponent) - 1, !(1 << exponent)] {
            value.pairs = pairs;
            compare(calls, &value, &mut tally);
        }
    }
    tally.demand(20, &["0", "7F", "15", "is a plan", "is no plan"]);
}

/// As many pairs as the limit allows, paired by chance.
fn full(rng: &mut Rng, shape: Shape) -> Plan {
    let splits = most_splits(shape);
    value(shape, &plans::paired(rng, shape, splits))
}

struct Answers {
    draft: bool,
    is_plan: bool,
}

fn compare(calls: &dyn Calls, value: &Plan, tally: &mut Tally) -> Answers {
    let verdict = calls.verdict(value);
    assert_eq!(verdict, Second.verdict(value), "verdict on {value:?}");
    let kept = calls.keep(value);
    assert_eq!(kept, Second.keep(value), "keep {value:?}");
    let is_plan = calls.is_plan(value);
    assert_eq!(is_plan, Second.is_plan(value), "is a plan: {value:?}");

    count_flaws(value, verdict, tally);
    if verdict.number == 0 {
        count_sizes(value, &kept.plan, tally);
    }
    tally.count(if is_plan { "is a plan" } else { "is no plan" });
    Answers {
        draft: verdict.number != 15,
        is_plan,
    }
}

/// Counts a verdict, and where it is on the from column whether the to column
/// has a flaw as well, which must not come first.
fn count_flaws(value: &Plan, verdict: Verdict, tally: &mut Tally) {
    let column = match verdict.column {
        0 => String::new(),
        letter => char::from(letter).into(),
    };
    tally.count(format!("{}{column}", verdict.number));
    if verdict.column == b'F' {
        let exchanged = Plan {
            from: value.to,
            to: value.from,
            ..*value
        };
        let other = Second.verdict(&exchanged);
        let kind = format!("{}F, and {} of T", verdict.number, other.number);
        tally.count_if(other.column == b'F', &kind);
    }
}

/// Counts what is special about an accepted draft and the plan kept of it.
fn count_sizes(value: &Plan, kept: &Plan, tally: &mut Tally) {
    let full = value.pairs == PAIRS;
    let long = value.from.iter().any(|word| word >> 60 != 0);
    tally.count_if(kept.pairs < value.pairs, "joined");
    tally.count_if(kept.pairs == value.pairs, "kept");
    tally.count_if(long, "16 digits");
    tally.count_if(full, "128 pairs");
    tally.count_if(full && kept.pairs == PAIRS, "128 pairs kept");
}
