//! Unmatched and route, with the places that they tell: every kind of code, with
//! buffers of just the right length, longer, shorter and empty, on plans and on
//! damaged values.

use reference::Shape;

use super::buffers::{self, compare as compare_buffer, lengths, output_length};
use super::tally::Tally;
use crate::calls::Calls;
use crate::packed::plan_value;
use crate::random::bases::every_shape;
use crate::random::codes::{code, Kind, KINDS};
use crate::random::damage::damaged;
use crate::random::{plans, Rng};
use crate::second::Second;
use crate::values::Plan;

/// Every kind of code for random plans of each shape.
pub fn of_plans(calls: &dyn Calls) {
    let mut rng = Rng::new(401);
    let mut tally = Tally::default();
    for shape in every_shape() {
        for _ in 0..4 {
            let plan = plans::plan(&mut rng, shape);
            let value = plan_value(&plan);
            for kind in KINDS {
                let code = code(&mut rng, &plan, kind);
                compare(calls, &value, code.bytes(), &mut tally);
            }
        }
    }
    tally.demand(100, &["route 0", "route 4", "route 13", "route 14"]);
    tally.demand(
        100,
        &[
            "no tail",
            "a tail",
            "a whole code",
            "a later place",
            "13 with no room",
        ],
    );
    tally.demand(100, &["an image of more than 1,024 digits"]);
}

/// Each beginning of a code of 1,025 digits, on a small plan, and the shorter
/// ones on plans of up to 128 words and 16 digits.
pub fn of_beginnings(calls: &dyn Calls) {
    let mut rng = Rng::new(402);
    let mut tally = Tally::default();
    for (arity, roots, splits, most) in [(2, 1, 3, 1025), (2, 1, 127, 40), (9, 1, 15, 40)] {
        let shape = Shape { arity, roots };
        let plan = plans::kept(shape, &plans::paired(&mut rng, shape, splits));
        let value = plan_value(&plan);
        for _ in 0..3 {
            let long = code(&mut rng, &plan, Kind::TooLong);
            for length in 0..=most {
                compare(calls, &value, &long.bytes()[..length], &mut tally);
            }
        }
    }
    tally.demand(10, &["route 0", "route 4", "route 13", "route 14"]);
}

/// 15 before all else, and other plans by damage that leaves one.
pub fn of_damaged(calls: &dyn Calls) {
    let mut rng = Rng::new(403);
    let mut tally = Tally::default();
    for shape in every_shape() {
        for _ in 0..6 {
            let plan = plans::plan(&mut rng, shape);
            let value = damaged(&mut rng, &plan_value(&plan));
            let kind = *rng.pick(&KINDS);
            let code = code(&mut rng, &plan, kind);
            compare(calls, &value, code.bytes(), &mut tally);
        }
    }
    tally.demand(100, &["route 15"]);
    tally.demand(100, &["a whole code"]);
}

/// Every byte as the belt and as a way.
pub fn of_bytes(calls: &dyn Calls) {
    let mut rng = Rng::new(404);
    let mut tally = Tally::default();
    for shape in every_shape() {
        let plan = plans::kept(shape, &plans::identity(shape));
        let value = plan_value(&plan);
        for byte in 0..=255 {
            compare(calls, &value, &[byte], &mut tally);
            compare(calls, &value, &[b'1', byte, b'1'], &mut tally);
        }
        let code = code(&mut rng, &plan, Kind::Empty);
        compare(calls, &value, code.bytes(), &mut tally);
    }
    tally.demand(500, &["route 0", "route 4"]);
}

pub fn compare(calls: &dyn Calls, plan: &Plan, code: &[u8], tally: &mut Tally) {
    let matched = calls.unmatched(plan, code);
    let expected = Second.unmatched(plan, code);
    assert_eq!(matched, expected, "unmatched of {code:?} by {plan:?}");
    let kind = match matched.tail {
        0 => "no tail",
        whole if whole == code.len() => "a whole code",
        _ => "a tail",
    };
    tally.count(kind);
    tally.count_if(matched.place > 1, "a later place");

    let ask: buffers::Ask<_> = &|calls, out| calls.route(plan, code, out);
    let output = output_length(ask);
    for length in lengths(output) {
        let answer = compare_buffer(calls, ask, length, code.len() + length);
        tally.count(format!("route {}", answer.number));
        tally.count_if(answer.length > 1024, "an image of more than 1,024 digits");
        tally.count_if(answer.number == 13 && length == 0, "13 with no room");
    }
}
