//! The places of E7: the pair that a match or a route names is the one in that place
//! of the plan's columns, and there is none in a refusal. What is expected stands in
//! the value that is handed in; the second implementation is asked beside it.

use reference::{Shape, CODE_DIGITS};

use super::buffers::{compare as compare_buffer, lengths, output_length, Ask};
use super::tally::Tally;
use crate::calls::Calls;
use crate::packed::{plan_value, unpack};
use crate::random::bases::{deep_basis, every_shape, most_splits};
use crate::random::codes::{code, Kind};
use crate::random::damage::damaged;
use crate::random::{plans, Rng};
use crate::second::Second;
use crate::values::{Matched, Plan, Routed};

/// Every place of full plans of each shape, 128 in shape (2,1), and of some others: by
/// the from-word, by a digit more and by a code of 1,024 digits.
pub fn of_every_place(calls: &dyn Calls) {
    let mut rng = Rng::new(701);
    let mut tally = Tally::default();
    for shape in every_shape() {
        let splits = most_splits(shape);
        let deep = deep_basis(&mut rng, shape, splits);
        let full = [
            plans::paired(&mut rng, shape, splits),
            plans::permuted(&mut rng, &deep),
        ];
        let full = full.map(|rows| plans::kept(shape, &rows));
        for plan in full.into_iter().chain([plans::plan(&mut rng, shape)]) {
            let value = plan_value(&plan);
            for place in 1..=value.pairs {
                of_place(calls, &mut rng, &value, place);
                tally.count(format!("place {place}"));
            }
        }
    }
    let every: Vec<String> = (1..=128).map(|place| format!("place {place}")).collect();
    tally.demand(2, &every);
}

/// Codes that the from-word at this place begins.
fn of_place(calls: &dyn Calls, rng: &mut Rng, plan: &Plan, place: usize) {
    let [from, to] = [&plan.from, &plan.to].map(|column| unpack(column[place - 1]));
    let longest = CODE_DIGITS - from.len();
    for tail in [0, 1, *rng.pick(&[2, 15, longest])] {
        let tail = ways(rng, plan, tail);
        let code = [&from[..], &tail].concat();
        let matched = calls.unmatched(plan, &code);
        let tail = Matched {
            tail: tail.len(),
            place,
        };
        assert_eq!(matched, tail, "match at {place} of {plan:?}");
        let length = to.len() + tail.tail;
        let mut out = vec![b'.'; length];
        let routed = calls.route(plan, &code, &mut out);
        let image = Routed::image(length, place);
        assert_eq!(routed, image, "route at {place} of {plan:?}");
        assert!(out.starts_with(&to) && out.ends_with(&code[from.len()..]));
        assert_eq!(Second.unmatched(plan, &code), matched);
        assert_eq!(Second.route(plan, &code, &mut out), routed);
    }
}

fn ways(rng: &mut Rng, plan: &Plan, length: usize) -> Vec<u8> {
    let way = |rng: &mut Rng| b'0' + rng.between(1, plan.arity.into()) as u8;
    (0..length).map(|_| way(rng)).collect()
}

/// A match without a place: 15, 4, and a code that no from-word begins.
pub fn of_no_match(calls: &dyn Calls) {
    let mut rng = Rng::new(702);
    let mut tally = Tally::default();
    for shape in every_shape() {
        for (kind, code, value) in refused(&mut rng, shape) {
            let matched = calls.unmatched(&value, &code);
            let none = Matched::nothing(code.len());
            assert_eq!(matched, none, "match with {kind} by {value:?}");
            tally.count(kind.to_string());
        }
    }
    tally.demand(60, &["15", "4", "13", "15 before 4"]);
}

/// A route without a place: 15, 4, 13 and 14 have neither length nor place, and leave
/// the buffer as it was.
pub fn of_no_route(calls: &dyn Calls) {
    let mut rng = Rng::new(703);
    let mut tally = Tally::default();
    for shape in every_shape() {
        for (kind, code, value) in refused(&mut rng, shape) {
            let number = kind
                .split(' ')
                .next()
                .and_then(|number| number.parse().ok());
            let refused = Routed::refused(number.expect("it begins with a number"));
            of_refused(calls, &value, &code, 1100, refused, kind);
            of_refused(calls, &value, &code, 0, refused, kind);
            tally.count(kind.to_string());
        }
        let plan = plans::plan(&mut rng, shape);
        let value = plan_value(&plan);
        for kind in [Kind::FromWord, Kind::ShortTail, Kind::Longest] {
            let code = code(&mut rng, &plan, kind);
            let ask: Ask<_> = &|calls, out| calls.route(&value, code.bytes(), out);
            let output = output_length(ask);
            for room in [output - 1, output / 2, 0] {
                of_refused(calls, &value, code.bytes(), room, Routed::refused(14), "14");
                tally.count("14");
            }
            for room in lengths(output) {
                compare_buffer(calls, ask, room, room);
            }
        }
    }
    tally.demand(60, &["15", "4", "13", "14", "15 before 4"]);
}

/// A route that is refused, with a buffer of so many bytes.
fn of_refused(
    calls: &dyn Calls,
    value: &Plan,
    code: &[u8],
    room: usize,
    refused: Routed,
    kind: &str,
) {
    let mut out = vec![b'.'; room];
    let routed = calls.route(value, code, &mut out);
    assert_eq!(routed, refused, "route with {kind} by {value:?}");
    let untouched = out.iter().all(|byte| *byte == b'.');
    assert!(untouched, "the buffer with {kind} by {value:?}");
}

/// Codes and values that have no image, with the number of the refusal: values that
/// are no plans beside codes that their rows would match, bad codes that begin with a
/// from-word, and fronts of from-words.
fn refused(rng: &mut Rng, shape: Shape) -> Vec<(&'static str, Vec<u8>, Plan)> {
    let plan = loop {
        let plan = plans::plan(rng, shape);
        // a front needs a from-word that is longer than a belt
        if plan.pairs().keys().any(|from| from.len() > 1) {
            break plan;
        }
    };
    let value = plan_value(&plan);
    let bytes = |rng: &mut Rng, kind| code(rng, &plan, kind).bytes().to_vec();
    let from: Vec<Vec<u8>> = plan.pairs().keys().cloned().collect();
    let begun = rng.pick(&from).clone();
    let wrong = [&begun[..], &[b'1' + shape.arity]].concat();
    let mut cases = vec![
        ("4", bytes(rng, Kind::Empty), value),
        ("4", bytes(rng, Kind::TooLong), value),
        ("4", bytes(rng, Kind::WrongBelt), value),
        ("4", wrong.clone(), value),
    ];
    let front = from.iter().find(|from| from.len() > 1);
    let front = front.expect("there is a longer from-word");
    cases.push(("13", front[..1].to_vec(), value));
    cases.push(("13", front[..front.len() - 1].to_vec(), value));
    let no_plan = no_plan(rng, &value);
    cases.push(("15", begun, no_plan));
    cases.push(("15", front[..1].to_vec(), no_plan));
    cases.push(("15 before 4", wrong, no_plan));
    cases
}

/// The value with some damage that leaves no plan. Often its rows are still there.
fn no_plan(rng: &mut Rng, value: &Plan) -> Plan {
    loop {
        let mut damaged = match rng.below(3) {
            0 => damaged(rng, value),
            _ => *value,
        };
        if damaged == *value && value.pairs < 128 {
            // a place that is used by no pair and not zero
            damaged.to[127] = 0x11;
        } else if damaged == *value {
            damaged.to[127] = damaged.to[0];
        }
        if !Second.is_plan(&damaged) {
            return damaged;
        }
    }
}
