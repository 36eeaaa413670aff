//! Tables of pairs beside listings (E10): split from plans any number of times, far
//! beyond the limits of a plan too, they act alike, are no shorter, and their
//! from-words each begin with a listed one; changed anywhere, they act otherwise.
//! Plans are typed, those of X among them, or made by follow, inverse and power.

use reference::basis::column_flaw;
use reference::maps::{self, Pairs};
use reference::plan::within_limits;
use reference::tables::{from_is_basis, image, telling_code};
use reference::{exercise, Shape, Word, CODE_DIGITS, PAIRS, WORD_DIGITS};

use super::buffers::AMPLE;
use super::tally::Tally;
use crate::calls::Calls;
use crate::listed::Listed;
use crate::packed::{value, Row};
use crate::random::bases::{every_shape, splits_within};
use crate::random::families::to_belts;
use crate::random::tables::{changed, split, CHANGES};
use crate::random::{plans, Rng};
use crate::values::Plan;

/// A plan that the calls made, its listing, and a table with the action that it was
/// made to have, which no one joined.
struct Case {
    how: &'static str,
    plan: Plan,
    listed: Listed,
    unjoined: Vec<Row>,
}

impl Case {
    /// Fails unless the listing is a table as E10 has them, with that action.
    fn new(calls: &dyn Calls, how: &'static str, plan: Plan, unjoined: Vec<Row>) -> Case {
        let listed = listing(calls, &plan);
        listed.assert_acts_as(&unjoined);
        Case {
            how,
            plan,
            listed,
            unjoined,
        }
    }
}

/// Tables split from the second implementation's plan, which may be the shorter one,
/// from what was typed or composed, and from the listing itself.
pub fn split_from_plans(calls: &dyn Calls) {
    let mut rng = Rng::new(701);
    let mut tally = Tally::default();
    for shape in every_shape() {
        for case in cases(calls, &mut rng, shape) {
            assert_eq!(case.listed.shape, shape, "the shape of {}", case.listed);
            tally.count(case.how);
            let joined = maps::reduce(shape, case.unjoined.iter().cloned().collect());
            let joined: Vec<Row> = joined.into_iter().collect();
            for rows in [&joined, &case.unjoined, &case.listed.rows] {
                for (splits, deep) in numbers_of_splits(&mut rng, shape) {
                    let table = split(&mut rng, shape, rows, splits, deep);
                    compare(calls, &case, &table, &mut tally);
                }
            }
        }
    }
    tally.demand(60, &["typed", "X", "follow", "inverse", "power"]);
    tally.demand(28, &["to belts"]);
    tally.demand(500, &["the listing", "longer", "kept", "beyond 128 pairs"]);
    tally.demand(200, &["beyond 16 digits", "beyond 500 pairs"]);
}

/// No word above the from-words of a listing can stand in a table beside it. That
/// is all of E10 for one plan: a basis has such a word, or its words all begin with
/// listed ones.
pub fn words_above_plans(calls: &dyn Calls) {
    let mut rng = Rng::new(703);
    let mut tally = Tally::default();
    for shape in every_shape() {
        for _ in 0..3 {
            for case in cases(calls, &mut rng, shape) {
                for _ in 0..case.listed.assert_nothing_above(&case.unjoined) {
                    tally.count("a word above");
                }
                tally.count(case.how);
            }
        }
    }
    tally.demand(180, &["typed", "X", "follow", "inverse", "power"]);
    tally.demand(5000, &["a word above"]);
}

/// None, one, a few, enough for 128 pairs and more, and some that go deep.
fn numbers_of_splits(rng: &mut Rng, shape: Shape) -> [(usize, bool); 5] {
    let beyond = splits_within(shape, 2 * PAIRS);
    [
        (0, false),
        (1, false),
        (rng.between(2, 6), rng.chance(50)),
        (rng.between(beyond, 3 * beyond), false),
        (rng.between(1, 40), true),
    ]
}

/// What E10 says of a table that acts as the plan does, and what the calls say of
/// it where it is within the limits.
fn compare(calls: &dyn Calls, case: &Case, table: &[Row], tally: &mut Tally) {
    let listed = &case.listed;
    let shape = listed.shape;
    assert!(from_is_basis(shape, table), "split from a basis");
    listed.assert_acts_as(table);
    listed.assert_not_longer_than(table);
    let as_many = table.len() == listed.rows.len();
    tally.count(if as_many { "the listing" } else { "longer" });
    tally.count_if(table.len() > PAIRS, "beyond 128 pairs");
    tally.count_if(table.len() > 500, "beyond 500 pairs");
    let deep = table.iter().any(|(from, _)| from.len() > WORD_DIGITS);
    tally.count_if(deep, "beyond 16 digits");
    if can_be_typed(table) {
        let kept = calls.keep(&value(shape, table));
        assert_eq!(kept.number, 0, "keeping a table beside {listed}");
        let again = listing(calls, &kept.plan);
        assert_eq!(&again, listed, "a table that acts alike is kept as another");
        let same = calls.same(&case.plan, &kept.plan);
        assert_eq!((same.number, same.alike), (0, true), "same as {listed}");
        tally.count("kept");
    }
}

/// Split tables with a change in some rows: a code tells them from the listing, and
/// where they can be kept the calls tell them apart too.
pub fn changed_tables(calls: &dyn Calls) {
    let mut rng = Rng::new(702);
    let mut tally = Tally::default();
    for shape in every_shape() {
        for case in cases(calls, &mut rng, shape) {
            for change in CHANGES {
                let (splits, deep) = *rng.pick(&[(0, false), (3, false), (20, true), (60, false)]);
                let table = split(&mut rng, shape, &case.listed.rows, splits, deep);
                if let Some(after) = changed(&mut rng, shape, &table, change) {
                    tell_apart(calls, &case, &after, &mut tally);
                    tally.count(format!("{change:?}"));
                }
            }
        }
    }
    tally.demand(100, &CHANGES.map(|change| format!("{change:?}")));
    tally.demand(200, &["kept", "no basis", "beyond the limits", "routed"]);
}

/// The code that tells a changed table from the listing is long enough for both
/// and goes to two places; the calls send it to that of the listing.
fn tell_apart(calls: &dyn Calls, case: &Case, table: &[Row], tally: &mut Tally) {
    let listed = &case.listed;
    let shape = listed.shape;
    let code = telling_code(shape, &listed.rows, table);
    let code = code.unwrap_or_else(|| panic!("nothing tells {table:?} from {listed}"));
    assert!(shape.is_code(&code), "{code:?} is no code");
    let images = [&listed.rows, table].map(|rows| image(rows, &code));
    let [Some(here), Some(there)] = &images else {
        panic!("{code:?} isn't long enough for both: {images:?}");
    };
    assert_ne!(here, there, "{code:?} goes to one place");
    if code.len() <= CODE_DIGITS {
        assert_eq!(&route(calls, &case.plan, &code), here, "{code:?}");
        tally.count("routed");
    }
    if !can_be_typed(table) {
        tally.count("beyond the limits");
        return;
    }
    let goals: Vec<Word> = table.iter().map(|(_, to)| to.clone()).collect();
    let kept = calls.keep(&value(shape, table));
    if column_flaw(shape, &goals).is_some() {
        assert_eq!(kept.column, b'T', "to-words that are no basis: {table:?}");
        tally.count("no basis");
        return;
    }
    assert_eq!(kept.number, 0, "keeping {table:?}");
    assert_eq!(&route(calls, &kept.plan, &code), there, "{code:?}");
    let same = calls.same(&case.plan, &kept.plan);
    assert_eq!((same.number, same.alike), (0, false), "unlike {listed}");
    assert_ne!(
        &listing(calls, &kept.plan),
        listed,
        "two plans of one listing"
    );
    tally.count("kept");
}

/// Whether a table keeps to the limits of a plan.
pub fn can_be_typed(table: &[Row]) -> bool {
    within_limits(&table.iter().cloned().collect())
}

/// The listing of a plan by the calls.
pub fn listing(calls: &dyn Calls, plan: &Plan) -> Listed {
    let mut out = [0; AMPLE];
    let written = calls.list(plan, b'A', &mut out);
    assert_eq!(written.number, 0, "the listing of {plan:?}");
    Listed::read(&out[..written.length])
}

fn route(calls: &dyn Calls, plan: &Plan, code: &[u8]) -> Word {
    let mut out = [0; AMPLE];
    let written = calls.route(plan, code, &mut out);
    assert_eq!(written.number, 0, "the route of {code:?} by {plan:?}");
    out[..written.length].to_vec()
}

/// Plans of the shape by each way to make one, where it is granted.
fn cases(calls: &dyn Calls, rng: &mut Rng, shape: Shape) -> Vec<Case> {
    let [one, other] = [(); 2].map(|()| {
        let splits = rng.below(splits_within(shape, 40).min(5) + 1);
        typed_case(calls, shape, "typed", plans::paired(rng, shape, splits))
    });
    let mut cases = made_cases(calls, rng, &one, &other);
    let typed = [(); 2].map(|()| plans::rows(rng, shape));
    cases.extend(typed.map(|rows| typed_case(calls, shape, "typed", rows)));
    let splits = rng.below(splits_within(shape, 60) + 1) as u8;
    let exercised = exercise::unreduced(shape, splits, 1 + rng.below(1 << 30) as u64);
    if can_be_typed(&exercised) {
        cases.push(typed_case(calls, shape, "X", exercised));
    }
    let belts = to_belts(shape).into_iter();
    cases.extend(belts.map(|rows| typed_case(calls, shape, "to belts", rows)));
    cases.extend([one, other]);
    cases
}

/// The plans that follow, inverse and power make of these, with the action worked
/// out by the second implementation and left unjoined.
fn made_cases(calls: &dyn Calls, rng: &mut Rng, one: &Case, other: &Case) -> Vec<Case> {
    let [a, b] = [one, other].map(|case| case.unjoined.iter().cloned().collect::<Pairs>());
    let k = rng.between(2, 4);
    let powered = (1..k).fold(a.clone(), |power, _| maps::then(&power, &a));
    let followed = calls.follow(&one.plan, &other.plan);
    let made = [
        ("follow", followed, maps::then(&a, &b)),
        ("inverse", calls.inverse(&one.plan), maps::inverse(&a)),
        ("power", calls.power(&one.plan, k as i32), powered),
    ];
    let granted = made.into_iter().filter(|(how, made, _)| {
        assert!([0, 11].contains(&made.number), "{how}: {made:?}");
        made.number == 0
    });
    granted
        .map(|(how, made, pairs)| Case::new(calls, how, made.plan, pairs.into_iter().collect()))
        .collect()
}

fn typed_case(calls: &dyn Calls, shape: Shape, how: &'static str, rows: Vec<Row>) -> Case {
    let kept = calls.keep(&value(shape, &rows));
    assert_eq!(kept.number, 0, "keeping {rows:?}");
    Case::new(calls, how, kept.plan, rows)
}
