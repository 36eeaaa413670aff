//! Powers: small exponents of every sign, the limits of the exponent, and the
//! ends of its type. Plans of finite order reach the power 1,000; the others
//! reach refusal 11, at an exponent that is looked for and tried on both sides.

use reference::{Plan as Kept, Shape};

use super::tally::Tally;
use crate::calls::Calls;
use crate::packed::plan_value;
use crate::random::bases::{basis, even_basis, every_shape, most_splits, splits_within};
use crate::random::damage::damaged;
use crate::random::families::{shift, slow_ring, turning};
use crate::random::{plans, Rng};
use crate::second::Second;
use crate::values::Plan;

/// Exponents that are refused by themselves.
const OUTSIDE: [i32; 8] = [
    1001,
    -1001,
    1024,
    -2000,
    65_536,
    -65_535,
    i32::MIN,
    i32::MAX,
];

/// All small exponents, of random and of special plans of each shape.
pub fn small(calls: &dyn Calls) {
    let mut rng = Rng::new(301);
    let mut tally = Tally::default();
    for shape in every_shape() {
        let splits = splits_within(shape, 40).min(4);
        let rows = [
            shift(shape),
            plans::paired(&mut rng, shape, splits),
            plans::rings(&mut rng, shape, splits),
        ];
        for rows in rows {
            let plan = plan_value(&plans::kept(shape, &rows));
            for k in -20..=20 {
                compare(calls, &plan, k, &mut tally);
            }
        }
    }
    tally.demand(500, &["0", "11"]);
    tally.demand(10, &["128 pairs or nearly", "16 digits"]);
}

/// Exponents up to 1,000 of plans of finite order, small and of 128 pairs.
pub fn large(calls: &dyn Calls) {
    let mut rng = Rng::new(302);
    let mut tally = Tally::default();
    for shape in every_shape() {
        let splits = rng.below(splits_within(shape, 12) + 1);
        let words = basis(&mut rng, shape, splits);
        let plan = plan_value(&plans::kept(shape, &plans::permuted(&mut rng, &words)));
        for k in [-1000, -999, 100, 1000] {
            compare(calls, &plan, k, &mut tally);
        }
        for k in OUTSIDE {
            compare(calls, &plan, k, &mut tally);
        }
    }
    for shape in [Shape { arity: 2, roots: 1 }, Shape { arity: 3, roots: 2 }] {
        let words = basis(&mut rng, shape, most_splits(shape));
        let plan = plan_value(&plans::kept(shape, &plans::permuted(&mut rng, &words)));
        for k in [-17, -1, 0, 1, 20, 1000, 1001, i32::MIN] {
            compare(calls, &plan, k, &mut tally);
        }
    }
    tally.demand(200, &["0", "12"]);
    tally.demand(5, &["128 pairs or nearly"]);
}

/// The first exponent with refusal 11, those beside it, and powers that would
/// be within the limits again.
pub fn at_the_limits(calls: &dyn Calls) {
    let mut rng = Rng::new(303);
    let mut tally = Tally::default();
    for shape in every_shape() {
        let splits = splits_within(shape, 20).min(4);
        let ring = plans::kept(shape, &slow_ring(&mut rng, shape, splits));
        let first = first_refused(&ring);
        let ring = plan_value(&ring);
        for k in [first - 1, first, first + 1] {
            compare(calls, &ring, k, &mut tally);
            compare(calls, &ring, -k, &mut tally);
        }
        let turned = 127 / (2 * usize::from(shape.arity) - 1);
        if turned >= usize::from(shape.roots) {
            let words = even_basis(&mut rng, shape, splits_within(shape, turned));
            let plan = plan_value(&plans::kept(shape, &turning(shape, &words)));
            let order = 2 * i32::from(shape.arity);
            for k in [1, -1, order - 1, order, order + 1] {
                compare(calls, &plan, k, &mut tally);
                tally.count_if(calls.power(&plan, k).number == 11, "11 in between");
            }
        }
    }
    tally.demand(100, &["0", "11"]);
    tally.demand(50, &["11 in between"]);
}

/// 15 before 12, and 12 before 11.
pub fn refused(calls: &dyn Calls) {
    let mut rng = Rng::new(304);
    let mut tally = Tally::default();
    for shape in every_shape() {
        let plan = plan_value(&plans::kept(shape, &shift(shape)));
        for k in [15, -15, 1000, -1000, 1001, -1001, i32::MIN, i32::MAX] {
            compare(calls, &plan, k, &mut tally);
        }
        for _ in 0..6 {
            let value = damaged(&mut rng, &plan);
            for k in [0, 1, -1, 2, 1001, i32::MAX] {
                compare(calls, &value, k, &mut tally);
            }
        }
    }
    tally.demand(200, &["11", "12", "15"]);
}

/// The first power of a plan that breaks a limit.
fn first_refused(plan: &Kept) -> i32 {
    let mut power = plan.clone();
    let mut k = 1;
    while let Ok(next) = power.then(plan) {
        power = next;
        k += 1;
        assert!(k < 500, "the powers of {plan:?} don't grow");
    }
    k + 1
}

fn compare(calls: &dyn Calls, plan: &Plan, k: i32, tally: &mut Tally) {
    let made = calls.power(plan, k);
    assert_eq!(made, Second.power(plan, k), "power {k} of {plan:?}");
    tally.count(made.number.to_string());
    tally.count_if(made.plan.pairs >= 120, "128 pairs or nearly");
    let long = made.plan.from.iter().any(|word| word >> 60 != 0);
    tally.count_if(long, "16 digits");
}
