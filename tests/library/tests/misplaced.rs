//! The checks of places themselves: a sound copy passes them, and every copy that
//! tells a wrong place in one call fails those that are there for it.

use std::panic::{catch_unwind, AssertUnwindSafe};

use library::checks::places::{of_every_place, of_no_match, of_no_route};
use library::checks::routes;
use library::misplaced::{Flaw, Misplaced, OF_BUFFERS, OF_MATCHES, OF_NO_MATCHES};
use library::misread::Call;
use library::Calls;

/// A check of places.
type Check = fn(&dyn Calls);

const CALLS: [Call; 2] = [Call::Unmatched, Call::Route];

/// What the check says where it fails.
fn failure(check: Check, calls: &Misplaced) -> Option<String> {
    let said = catch_unwind(AssertUnwindSafe(|| check(calls))).err()?;
    let text = said.downcast::<String>().map(|text| *text);
    Some(text.unwrap_or_default())
}

/// Fails unless the check sees the flaw and says one of these.
fn caught(check: Check, call: Call, flaw: Flaw, expected: &[&str]) {
    let said = failure(check, &Misplaced(call, flaw));
    let said = said.unwrap_or_else(|| panic!("{flaw:?} isn't caught in {call:?}"));
    let seen = expected.iter().any(|words| said.contains(words));
    assert!(seen, "{flaw:?} in {call:?}: {said}");
}

#[test]
fn a_sound_copy_passes() {
    let checks: [Check; 5] = [
        of_every_place,
        of_no_match,
        of_no_route,
        routes::of_plans,
        routes::of_damaged,
    ];
    for check in checks {
        assert_eq!(failure(check, &Misplaced(Call::Route, Flaw::None)), None);
    }
}

/// By every place, and by codes of every kind too.
#[test]
fn wrong_places_are_caught() {
    for (call, flaw) in CALLS
        .into_iter()
        .flat_map(|call| OF_MATCHES.map(|flaw| (call, flaw)))
    {
        let every: &[&str] = match call {
            Call::Unmatched => &["match at"],
            Call::Route => &["route at"],
        };
        caught(of_every_place, call, flaw, every);
        let any: &[&str] = match call {
            Call::Unmatched => &["unmatched of"],
            Call::Route => &["with a buffer of"],
        };
        caught(routes::of_plans, call, flaw, any);
    }
}

/// "The place is 0 where nothing matches or 15 or 4 applies."
#[test]
fn places_without_a_match_are_caught() {
    for flaw in OF_NO_MATCHES {
        let number = match flaw {
            Flaw::Unmatched => "13",
            Flaw::NoPlan => "15",
            _ => "4",
        };
        let said = format!("with {number}");
        caught(
            of_no_match,
            Call::Unmatched,
            flaw,
            &[&format!("match {said}")],
        );
        caught(of_no_route, Call::Route, flaw, &[&format!("route {said}")]);
        let by_chance: Check = match flaw {
            Flaw::NoPlan => routes::of_damaged,
            _ => routes::of_plans,
        };
        caught(by_chance, Call::Unmatched, flaw, &["unmatched of"]);
        caught(by_chance, Call::Route, flaw, &["with a buffer of"]);
    }
}

/// A route that finds its buffer too short has found the pair before.
#[test]
fn places_of_images_that_do_not_fit_are_caught() {
    for flaw in OF_BUFFERS {
        caught(of_no_route, Call::Route, flaw, &["route with 14"]);
        caught(routes::of_plans, Call::Route, flaw, &["with a buffer of"]);
    }
}
