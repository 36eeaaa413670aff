//! Follow, inverse and same on pairs of plans: of one shape and of two, with
//! products far within the limits, just within, just beyond and far beyond,
//! and with a damaged value on either side.

use reference::{maps, Plan as Kept, Shape, PAIRS};

use super::tally::Tally;
use crate::calls::Calls;
use crate::packed::plan_value;
use crate::random::bases::{basis, every_shape, some_shape, some_splits, splits_within};
use crate::random::damage::damaged;
use crate::random::families::{shift, Twists};
use crate::random::{plans, Rng};
use crate::second::Second;
use crate::values::Plan;

/// Plans of one shape: any two, two small ones, permutations of one basis, and
/// a plan with what leads from it to another.
pub fn of_one_shape(calls: &dyn Calls) {
    let mut rng = Rng::new(201);
    let mut tally = Tally::default();
    for shape in every_shape() {
        for _ in 0..8 {
            let any = [plans::plan(&mut rng, shape), plans::plan(&mut rng, shape)];
            compare(calls, &any, &mut tally);
            compare(calls, &small(&mut rng, shape), &mut tally);
            compare(calls, &permutations(&mut rng, shape), &mut tally);
            let [first, goal] = small(&mut rng, shape);
            if let Ok(rest) = first.inverse().then(&goal) {
                compare(calls, &[first, rest], &mut tally);
            }
        }
        let moves_nothing = Kept::identity(shape);
        let plan = plans::plan(&mut rng, shape);
        compare(calls, &[plan.clone(), moves_nothing.clone()], &mut tally);
        compare(calls, &[moves_nothing, plan], &mut tally);
    }
    tally.demand(
        200,
        &["follow 0", "follow 11", "same 0 true", "same 0 false"],
    );
    tally.demand(10, &["128 pairs made"]);
}

/// Products at the limits of pairs: of 128, of the next size beyond, and of a
/// table that is too large before the joins alone.
pub fn at_the_limit_of_pairs(calls: &dyn Calls) {
    let mut rng = Rng::new(202);
    let mut tally = Tally::default();
    for shape in every_shape() {
        let twists = Twists::new(&mut rng, shape, splits_within(shape, 70));
        let most = twists.most();
        let half = most / 2;
        let apart = [(half, half, most - half), (half, half, most - half + 1)];
        let across = [(); 10].map(|()| {
            let (one, other) = (rng.between(half, most), rng.between(half, most));
            (rng.below(twists.words()), one, other)
        });
        for (start, one, other) in apart.into_iter().chain(across) {
            let rows = [twists.plan(0, one), twists.plan(start, other)];
            let operands = rows.map(|rows| plans::kept(shape, &rows));
            compare(calls, &operands, &mut tally);
            let table = maps::then(operands[0].pairs(), operands[1].pairs());
            let reduced = maps::reduce(shape, table.clone());
            let beyond = reduced.len() > PAIRS;
            tally.count_if(table.len() > PAIRS && !beyond, "within by joins alone");
            let just = PAIRS - 1 + usize::from(shape.arity);
            tally.count_if(beyond && reduced.len() <= just, "just beyond");
        }
    }
    tally.demand(50, &["follow 0", "follow 11", "within by joins alone"]);
    tally.demand(10, &["128 pairs made", "just beyond"]);
}

/// Products at the limit of digits: powers of ψ that add up to 14 and to 15.
pub fn at_the_limit_of_digits(calls: &dyn Calls) {
    let mut tally = Tally::default();
    for shape in every_shape() {
        let shift = plans::kept(shape, &shift(shape));
        for (i, j) in [
            (7, 6),
            (7, 7),
            (7, 8),
            (-1, -14),
            (-7, -7),
            (13, -12),
            (-14, 14),
        ] {
            if let (Ok(first), Ok(second)) = (shift.power(i), shift.power(j)) {
                compare(calls, &[first, second], &mut tally);
            }
        }
    }
    tally.demand(50, &["follow 0", "follow 11", "16 digits made"]);
}

/// Refusals 15 and 10 in their order, on damaged values and other shapes.
pub fn refused(calls: &dyn Calls) {
    let mut rng = Rng::new(203);
    let mut tally = Tally::default();
    for _ in 0..1500 {
        let (here, there) = (some_shape(&mut rng), some_shape(&mut rng));
        let good = plan_value(&plans::plan(&mut rng, here));
        let like = plan_value(&plans::plan(&mut rng, here));
        let other = plan_value(&plans::plan(&mut rng, there));
        let (bad, far) = (damaged(&mut rng, &like), damaged(&mut rng, &other));
        for second in [other, bad, far] {
            compare_values(calls, &good, &second, &mut tally);
            compare_values(calls, &second, &good, &mut tally);
        }
        compare_values(calls, &bad, &far, &mut tally);
    }
    let kinds = [
        "follow 15",
        "follow 10",
        "same 15",
        "same 10",
        "inverse 15",
        "inverse 0",
    ];
    tally.demand(200, &kinds);
}

/// Two plans of few pairs, whose product stays within the limits.
fn small(rng: &mut Rng, shape: Shape) -> [Kept; 2] {
    let most = splits_within(shape, 40);
    [(); 2].map(|()| {
        let splits = rng.below(most.min(6) + 1);
        plans::kept(shape, &plans::paired(rng, shape, splits))
    })
}

/// Two permutations of one basis.
pub fn permutations(rng: &mut Rng, shape: Shape) -> [Kept; 2] {
    let splits = some_splits(rng, shape);
    let words = basis(rng, shape, splits);
    [(); 2].map(|()| plans::kept(shape, &plans::permuted(rng, &words)))
}

/// Both orders of two plans, and each with itself.
fn compare(calls: &dyn Calls, plans: &[Kept; 2], tally: &mut Tally) {
    let [first, second] = plans.each_ref().map(plan_value);
    compare_values(calls, &first, &second, tally);
    compare_values(calls, &second, &first, tally);
    compare_values(calls, &first, &first, tally);
}

fn compare_values(calls: &dyn Calls, first: &Plan, second: &Plan, tally: &mut Tally) {
    let made = calls.follow(first, second);
    assert_eq!(
        made,
        Second.follow(first, second),
        "{first:?} then {second:?}"
    );
    tally.count(format!("follow {}", made.number));
    tally.count_if(made.plan.pairs == PAIRS, "128 pairs made");
    let long = made.plan.from.iter().any(|word| word >> 60 != 0);
    tally.count_if(long, "16 digits made");

    let alike = calls.same(first, second);
    assert_eq!(alike, Second.same(first, second), "{first:?} as {second:?}");
    match alike.number {
        0 => tally.count(format!("same 0 {}", alike.alike)),
        number => tally.count(format!("same {number}")),
    }

    let inverse = calls.inverse(second);
    assert_eq!(inverse, Second.inverse(second), "inverse of {second:?}");
    tally.count(format!("inverse {}", inverse.number));
}
