//! The checks of bytes themselves: a sound reading passes them, and every reading
//! that is wrong in one way and one call fails the check that is there for it.

use std::ops::Range;
use std::panic::{catch_unwind, AssertUnwindSafe};

use library::checks::bytes::{at_every_place, in_long_codes, several_at_once};
use library::misread::{Call, Misread, STEPS};
use library::{table, Calls};
use reference::WORD_DIGITS;

/// A check of bytes.
type Check = fn(&dyn Calls);

const CHECKS: [Check; 3] = [at_every_place, in_long_codes, several_at_once];
const CALLS: [Call; 2] = [Call::Unmatched, Call::Route];

/// What the check says where it fails.
fn failure(check: Check, calls: &dyn Calls) -> Option<String> {
    let said = catch_unwind(AssertUnwindSafe(|| check(calls))).err()?;
    let text = said.downcast::<String>().map(|text| *text);
    Some(text.unwrap_or_default())
}

/// Fails unless the check sees that this call differs from the table.
fn caught(name: &str, check: Check, call: Call, calls: &Misread) {
    let said = failure(check, calls);
    let said = said.unwrap_or_else(|| panic!("{name} isn't caught in {call:?}"));
    let differs: &[&str] = match call {
        Call::Unmatched => &["unmatched of"],
        Call::Route => &["route of", "image of"],
    };
    let seen = differs.iter().any(|differs| said.contains(differs));
    assert!(seen, "{name} in {call:?}: {said}");
}

#[test]
fn a_sound_reading_passes() {
    for check in CHECKS {
        let sound = Misread::by_byte(Call::Route, |_, byte| byte);
        assert_eq!(failure(check, &sound), None);
    }
}

#[test]
fn wrong_steps_are_caught() {
    for (step, call) in product(STEPS, CALLS) {
        for check in CHECKS {
            let calls = Misread::by_byte(call, move |_, byte| step.read(byte));
            caught(&format!("{step:?}"), check, call, &calls);
        }
    }
}

/// Each byte taken for one of the other kind, by itself: as the belt, within
/// from-words, and behind them.
#[test]
fn each_of_the_bytes_is_tried() {
    let parts = [("belt", 0..1), ("from-word", 1..16), ("tail", 16..40)];
    for (byte, call) in product(0..=255, CALLS) {
        let wrong = table::value(byte).map_or(b'1', |_| b' ');
        for (part, places) in parts.clone() {
            let calls = Misread::by_byte(call, move |place, read| match read {
                _ if read == byte && places.contains(&place) => wrong,
                _ => read,
            });
            caught(&format!("{byte} in a {part}"), at_every_place, call, &calls);
        }
    }
}

/// Two digits exchanged, only where both are in range, so that no refusal tells:
/// the values themselves must show. Images show all of them, and so do the places of
/// the pairs.
#[test]
fn each_of_the_values_shows() {
    let digits = product(1..=9, 1..=9).filter(|(one, other)| one < other);
    for ((one, other), call) in product(digits, CALLS) {
        for (part, places) in [("belts", 0..1), ("ways", 1..16)] {
            let name = format!("{part} {one} and {other}");
            let calls = exchanged(call, one, other, places);
            caught(&name, at_every_place, call, &calls);
        }
    }
    for (place, call) in product(0..WORD_DIGITS, CALLS) {
        let calls = exchanged(call, 8, 9, place..place + 1);
        caught(&format!("at {place}"), at_every_place, call, &calls);
    }
}

/// A call with two digits, the smaller one first, exchanged at these places.
fn exchanged(call: Call, one: u8, other: u8, places: Range<usize>) -> Misread {
    let [here, there] = [one, other].map(table::byte);
    Misread::new(call, move |shape, code| {
        let mut read = code.to_vec();
        for (place, byte) in read.iter_mut().enumerate() {
            let most = if place == 0 { shape.roots } else { shape.arity };
            if other <= most && places.contains(&place) {
                match *byte {
                    read if read == here => *byte = there,
                    read if read == there => *byte = here,
                    _ => {}
                }
            }
        }
        read
    })
}

/// Other bytes taken for a 1 at one place alone.
#[test]
fn each_of_the_places_is_tried() {
    let short = (0..40).map(|place| (place, at_every_place as Check));
    let long = [16, 32, 50, 63, 99, 511, 512, 1022, 1023];
    let long = long.map(|place| (place, in_long_codes as Check));
    for ((place, check), call) in product(short.chain(long), CALLS) {
        let calls = Misread::by_byte(call, move |at, byte| match table::value(byte) {
            None if at == place => b'1',
            _ => byte,
        });
        caught(&format!("place {place}"), check, call, &calls);
    }
}

/// Wrong bytes that go unseen where there is an even number of them.
#[test]
fn two_wrong_bytes_are_tried() {
    for call in CALLS {
        let calls = Misread::new(call, |_, code| {
            let wrong = |byte: &u8| table::value(*byte).is_none();
            let even = code.iter().filter(|byte| wrong(byte)).count() % 2 == 0;
            let taken = |byte: &u8| if even && wrong(byte) { b'1' } else { *byte };
            code.iter().map(taken).collect()
        });
        caught("two wrong bytes", several_at_once, call, &calls);
    }
}

/// Each of the first with each of the second.
fn product<A: Copy, B>(
    first: impl IntoIterator<Item = A>,
    second: impl IntoIterator<Item = B> + Clone,
) -> impl Iterator<Item = (A, B)> {
    let first = first.into_iter();
    first.flat_map(move |a| second.clone().into_iter().map(move |b| (a, b)))
}
