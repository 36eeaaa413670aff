//! The laws of a group, asked of the calls alone: nothing is compared with the
//! second implementation but the plans to start from. Where a plan that a law
//! starts from is refused the law says nothing. The two sides of a law about
//! products are refused together; how often each was tried is counted.

use reference::Shape;

use super::products::permutations;
use super::tally::Tally;
use crate::calls::Calls;
use crate::packed::plan_value;
use crate::random::bases::{every_shape, splits_within};
use crate::random::codes::{code, Kind};
use crate::random::families::shift;
use crate::random::{plans, Rng};
use crate::values::{Made, Plan};

/// The plan made, or nothing where the call was refused.
fn granted(made: Made) -> Option<Plan> {
    (made.number == 0).then_some(made.plan)
}

/// Every law on triples of plans: small ones, permutations of one basis, and
/// powers of ψ with such a power or a small plan between them, whose product
/// often breaks a limit where those of two neighbours do not.
pub fn of_triples(calls: &dyn Calls) {
    let mut rng = Rng::new(601);
    let mut tally = Tally::default();
    for shape in every_shape() {
        for _ in 0..12 {
            let triple = small(&mut rng, shape);
            hold(calls, &triple, &mut tally);
            let [a, b] = permutations(&mut rng, shape).each_ref().map(plan_value);
            hold(calls, &[a, b, a], &mut tally);
            let [first, between, last] = shifted(calls, &mut rng, shape);
            hold(calls, &[first, between, last], &mut tally);
            hold(calls, &[first, triple[0], last], &mut tally);
        }
    }
    tally.demand(
        500,
        &["neutral", "inverse", "associative", "inverse of a product"],
    );
    tally.demand(100, &["associative in refusals", "alike", "not alike"]);
    tally.demand(50, &["inverse of a refused product"]);
}

/// The power of a sum is the product of the powers.
pub fn of_powers(calls: &dyn Calls) {
    let mut rng = Rng::new(602);
    let mut tally = Tally::default();
    for shape in every_shape() {
        let [small, _, _] = small(&mut rng, shape);
        let [permutation, _] = permutations(&mut rng, shape).each_ref().map(plan_value);
        let shift = plan_value(&plans::kept(shape, &shift(shape)));
        for plan in [small, permutation, shift] {
            for _ in 0..10 {
                let [i, j] = [(); 2].map(|()| rng.between(0, 18) as i32 - 9);
                powers_add(calls, &plan, i, j, &mut tally);
            }
        }
    }
    tally.demand(500, &["powers add", "powers below zero"]);
}

/// A code goes by the product where it goes by one plan after the other.
pub fn of_routes(calls: &dyn Calls) {
    let mut rng = Rng::new(603);
    let mut tally = Tally::default();
    for shape in every_shape() {
        for _ in 0..12 {
            let [a, b, _] = small(&mut rng, shape);
            let Some(product) = granted(calls.follow(&a, &b)) else {
                continue;
            };
            let plan = crate::packed::kept(&product).expect("a plan is made");
            for kind in [Kind::FromWord, Kind::ShortTail, Kind::Random] {
                let code = code(&mut rng, &plan, kind);
                let image = route(calls, &product, code.bytes());
                let halfway = route(calls, &a, code.bytes());
                let (Some(image), Some(halfway)) = (image, halfway) else {
                    continue;
                };
                if let Some(end) = route(calls, &b, &halfway) {
                    assert_eq!(image, end, "{code:?} by {a:?} then {b:?}");
                    tally.count("routed");
                }
            }
        }
    }
    tally.demand(1000, &["routed"]);
}

fn small(rng: &mut Rng, shape: Shape) -> [Plan; 3] {
    let most = splits_within(shape, 30).min(4);
    [(); 3].map(|()| {
        let splits = rng.below(most + 1);
        plan_value(&plans::kept(shape, &plans::paired(rng, shape, splits)))
    })
}

/// Three powers of ψ, all upwards or all downwards.
fn shifted(calls: &dyn Calls, rng: &mut Rng, shape: Shape) -> [Plan; 3] {
    let shift = plan_value(&plans::kept(shape, &shift(shape)));
    let sign = if rng.chance(50) { 1 } else { -1 };
    [(); 3].map(|()| {
        let power = rng.between(3, 8) as i32 * sign;
        granted(calls.power(&shift, power)).expect("a power of few ways")
    })
}

fn hold(calls: &dyn Calls, plans: &[Plan; 3], tally: &mut Tally) {
    let [a, b, c] = plans;
    let follow = |first: &Plan, second: &Plan| granted(calls.follow(first, second));
    let inverse = |plan: &Plan| granted(calls.inverse(plan)).expect("an inverse");
    let nothing = granted(calls.power(a, 0)).expect("the power 0");
    assert_eq!(follow(a, &nothing), Some(*a), "{a:?} then nothing");
    assert_eq!(follow(&nothing, a), Some(*a), "nothing then {a:?}");
    tally.count("neutral");

    let back = inverse(a);
    assert_eq!(inverse(&back), *a, "inverse of the inverse of {a:?}");
    assert_eq!(follow(a, &back), Some(nothing), "{a:?} and back");
    assert_eq!(follow(&back, a), Some(nothing), "back and {a:?}");
    tally.count("inverse");

    let (ab, bc) = (follow(a, b), follow(b, c));
    if let (Some(ab), Some(bc)) = (&ab, &bc) {
        let [left, right] = [calls.follow(ab, c), calls.follow(a, bc)];
        assert_eq!(left, right, "{a:?} then {b:?} then {c:?}");
        tally.count(match left.number {
            0 => "associative",
            _ => "associative in refusals",
        });
    }
    let turned = follow(&inverse(b), &back);
    let inverted = ab.as_ref().map(inverse);
    assert_eq!(turned, inverted, "{a:?} then {b:?}, inverse");
    tally.count(match inverted {
        Some(_) => "inverse of a product",
        None => "inverse of a refused product",
    });
    for other in [a, b, c] {
        let same = calls.same(a, other);
        assert_eq!((same.number, same.alike), (0, a == other));
        tally.count(if same.alike { "alike" } else { "not alike" });
    }
}

fn powers_add(calls: &dyn Calls, plan: &Plan, i: i32, j: i32, tally: &mut Tally) {
    let power = |k| granted(calls.power(plan, k));
    if let (Some(first), Some(second), Some(sum)) = (power(i), power(j), power(i + j)) {
        let product = calls.follow(&first, &second);
        assert_eq!(granted(product), Some(sum), "{i} and {j} of {plan:?}");
        tally.count("powers add");
    }
    if let (Some(up), Some(down)) = (power(i), power(-i)) {
        let back = calls.inverse(&up);
        assert_eq!(granted(back), Some(down), "{i} and back of {plan:?}");
        tally.count("powers below zero");
    }
}

fn route(calls: &dyn Calls, plan: &Plan, code: &[u8]) -> Option<Vec<u8>> {
    let mut out = [0; 1100];
    let written = calls.route(plan, code, &mut out);
    (written.number == 0).then(|| out[..written.length].to_vec())
}
