//! Records of a right form with a wrong value in them: bytes that name no
//! slot, empty slots, codes with a wrong digit, and n or r out of range. Often
//! two things are wrong at once, so that the order of the refusals shows.

use super::BAD_SLOTS;
use crate::plans;
use crate::session::{name, Session};

/// Powers and codes, good and bad ones, for records with a bad or empty slot.
const POWERS: &[&[u8]] = &[b"1", b"1001", b"-1001", b"15", b"0"];
const CODES: &[&[u8]] = &[b"1", b"", b"x"];

/// A slot that names no slot, next to other things that are wrong too, so
/// that the order of the refusals shows.
pub fn wrong_slots(session: &mut Session) {
    let slot = if session.rng.chance(50) {
        session.held_slot()
    } else {
        session.empty_slot()
    };
    let good: &[u8] = name(slot);
    let bad = *session.rng.pick(BAD_SLOTS);
    let k = *session.rng.pick(POWERS);
    let code = *session.rng.pick(CODES);
    let ask = if session.rng.chance(50) { b"L" } else { b"C" };
    match session.rng.below(11) {
        0 => session.record(&[b"F", bad, good, good]),
        1 => session.record(&[b"F", good, bad, good]),
        2 => session.record(&[b"F", good, good, bad]),
        3 => session.record(&[b"I", bad, good]),
        4 => session.record(&[b"I", good, bad]),
        5 => session.record(&[b"K", bad, k, good]),
        6 => session.record(&[b"K", good, k, bad]),
        7 => session.record(&[b"S", bad, good]),
        8 => session.record(&[b"S", good, bad]),
        9 => session.record(&[b"W", bad, code]),
        _ => session.record(&[ask, bad]),
    }
}

/// An operand thought to be empty, next to other things that are wrong too,
/// for the same reason.
pub fn empty_slots(session: &mut Session) {
    let held = name(session.held_slot());
    let empty = name(session.empty_slot());
    let k = *session.rng.pick(POWERS);
    let code = *session.rng.pick(CODES);
    match session.rng.below(8) {
        0 => session.record(&[b"F", empty, held, held]),
        1 => session.record(&[b"F", held, empty, held]),
        2 => session.record(&[b"I", empty, held]),
        3 | 4 => session.record(&[b"K", empty, k, held]),
        5 => session.record(&[b"S", held, empty]),
        6 => session.record(&[b"W", empty, code]),
        _ => session.record(&[b"C", empty]),
    }
}

/// A code that is empty, or has one digit outside its range; often on a slot
/// that may be empty.
pub fn wrong_code(session: &mut Session) {
    let slot = if session.rng.chance(80) {
        session.held_slot()
    } else {
        session.empty_slot()
    };
    let shape = session.slots[slot]
        .as_ref()
        .map_or(session.shapes[0], |held| held.shape);
    let length = session.rng.between(1, 12);
    let mut code = plans::random_code(&mut session.rng, shape, length);
    let place = session.rng.below(code.len());
    if session.rng.chance(80) {
        code[place] = plans::wrong_digit(&mut session.rng, shape, place);
    }
    if session.rng.chance(20) {
        code.clear();
    }
    session.record(&[b"W", name(slot), &code]);
}

/// P with n and r in and out of their ranges, with and without a slot, and
/// something after it that shows whether a plan is open.
pub fn wrong_opening(session: &mut Session) {
    let slot = session.some_slot();
    let mut letter: &[u8] = name(slot);
    if session.rng.chance(25) {
        letter = *session.rng.pick(BAD_SLOTS);
    }
    let n = [plans::digit(*session.rng.pick(&[0, 0, 1, 1, 2, 9]))];
    let r = [plans::digit(*session.rng.pick(&[0, 0, 1, 1, 9, 9]))];
    session.record(&[b"P", letter, &n, &r]);
    if session.rng.chance(50) {
        session.record(&[b"M", b"1", b"1"]);
    }
    if session.rng.chance(70) {
        session.record(&[b"E"]);
    }
}
