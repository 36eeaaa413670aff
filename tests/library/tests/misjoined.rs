//! The checks of E10 themselves: a sound copy passes them, and every copy that joins
//! or compares plans wrongly fails those that are there for it.

use std::panic::{catch_unwind, AssertUnwindSafe};

use library::checks::every_table::{beside_every_plan, beside_some_plans};
use library::checks::every_table::{near_plans, without_a_condition};
use library::checks::tables::{changed_tables, split_from_plans, words_above_plans};
use library::misjoined::{Flaw, Misjoined, OF_JOINS, OF_SAME};
use library::Calls;

/// A check of tables.
type Check = fn(&dyn Calls);

const CHECKS: [Check; 7] = [
    split_from_plans,
    words_above_plans,
    changed_tables,
    beside_every_plan,
    beside_some_plans,
    near_plans,
    without_a_condition,
];

/// What the check says where it fails.
fn failure(check: Check, flaw: Flaw) -> Option<String> {
    let said = catch_unwind(AssertUnwindSafe(|| check(&Misjoined(flaw)))).err()?;
    let text = said.downcast::<String>().map(|text| *text);
    Some(text.unwrap_or_default())
}

#[test]
fn a_sound_copy_passes() {
    for check in CHECKS {
        assert_eq!(failure(check, Flaw::None), None);
    }
}

/// Fails unless the check sees the flaw and says one of these.
fn caught(check: Check, flaw: Flaw, expected: &[&str]) {
    let said = failure(check, flaw);
    let said = said.unwrap_or_else(|| panic!("{flaw:?} isn't caught"));
    let seen = expected.iter().any(|words| said.contains(words));
    assert!(seen, "{flaw:?}: {said}");
}

/// Where too little is joined there is a shorter table, unless the first that is
/// typed beside a reduced plan isn't kept as that.
#[test]
fn wrong_joins_are_caught() {
    for flaw in OF_JOINS {
        let otherwise = match flaw {
            Flaw::AnyOrder | Flaw::TwoWays => Some("acts otherwise"),
            Flaw::AcrossBelts => Some("isn't of at least a belt"),
            Flaw::PairLost | Flaw::PairTwice => Some("are no basis"),
            _ => None,
        };
        let shorter = otherwise.unwrap_or("is shorter than");
        let typed = otherwise.unwrap_or("is kept as another");
        caught(split_from_plans, flaw, &[shorter, typed]);
        let parted = otherwise.unwrap_or("needn't be parted");
        caught(words_above_plans, flaw, &[parted]);
        caught(beside_every_plan, flaw, &[shorter]);
        let above = otherwise.unwrap_or("listed from-words that begin");
        // plans by chance seldom send the parts of a block to belts
        if flaw != Flaw::AcrossBelts {
            caught(beside_some_plans, flaw, &[shorter]);
            caught(near_plans, flaw, &[shorter, above]);
        }
    }
    caught(
        without_a_condition,
        Flaw::AcrossBelts,
        &["of at least a belt"],
    );
}

#[test]
fn wrong_comparisons_are_caught() {
    for flaw in OF_SAME {
        match flaw {
            Flaw::NeverSame => caught(split_from_plans, flaw, &["same as"]),
            _ => caught(changed_tables, flaw, &["unlike"]),
        }
    }
}
