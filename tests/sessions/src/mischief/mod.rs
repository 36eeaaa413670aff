//! The records that a desk has to refuse, or nearly: plans spoiled a little
//! and records in the middle of an open plan stand here, the limits and the
//! first value beyond each in `limits`, wrong forms of records in `forms`,
//! wrong values of a right form in `values`, what is wrong with an X in
//! `exercises`, with a Z in `stations`, and with a G or without a right in `rights`.

mod exercises;
mod forms;
mod limits;
mod rights;
mod stations;
mod values;

use crate::plans::{self, Row, Shape};
use crate::session::{name, Session};

/// Slot fields of the right form that name no slot.
const BAD_SLOTS: &[&[u8]] = &[
    b"I", b"@", b"a", b"h", b"Z", b"0", b"\0", b"\xff", b"\r", b" ",
];

/// One record or a few that are wrong in some way.
pub fn step(session: &mut Session) {
    match session.rng.below(23) {
        0..=2 => interrupted_plan(session),
        3 => limits::boundary(session),
        4 => limits::long_line(session),
        5 => forms::wrong_field_count(session),
        6 | 7 => forms::wrong_form(session),
        8 => forms::stray_bytes(session),
        9 => values::wrong_slots(session),
        10 => values::wrong_code(session),
        11 => values::empty_slots(session),
        12..=14 => exercises::step(session),
        15 | 16 => stations::step(session),
        17..=21 => rights::step(session),
        _ => values::wrong_opening(session),
    }
}

/// A real plan with one or two words spoiled. Where it is still a plan, the
/// slot holds it and the book does not say so.
pub fn load_near_miss(session: &mut Session) {
    let slot = session.some_slot();
    let shape = session.some_shape();
    let mut rows = plans::some_plan(&mut session.rng, shape);
    for _ in 0..session.rng.between(1, 2) {
        if !rows.is_empty() {
            plans::near_miss(&mut session.rng, shape, &mut rows);
        }
    }
    session.load(slot, shape, &rows);
}

/// A plan with another record somewhere among its pairs, and the rest of the
/// plan after it, which then meets no open plan.
fn interrupted_plan(session: &mut Session) {
    let slot = session.some_slot();
    let shape = session.some_shape();
    let rows = short_plan(session, shape);
    let cut = session.rng.below(rows.len() + 1);
    session.open(slot, shape);
    session.pairs(&rows[..cut]);
    interruption(session, slot);
    session.pairs(&rows[cut..]);
    if session.rng.chance(60) {
        session.record(&[b"E"]);
    }
    // the count of the station that is still named
    if session.rng.chance(40) {
        session.record(&[b"T"]);
    }
}

fn short_plan(session: &mut Session, shape: Shape) -> Vec<Row> {
    let splits = session.rng.below(shape.most_splits().min(4) + 1);
    plans::any_plan(&mut session.rng, shape, splits)
}

fn interruption(session: &mut Session, slot: usize) {
    let letter = name(slot);
    match session.rng.below(24) {
        0 => session.record(&[b"T"]),
        1 => session.record(&[b"U"]),
        2 => session.record(&[b"L", letter]),
        3 => session.record(&[b"C", letter]),
        4 => session.record(&[b"W", letter, b"1"]),
        5 => session.record(&[b"S", letter, letter]),
        6 => session.record(&[b"K", letter, b"1001", b"Z"]),
        7 => session.record(&[b"I", letter, b"Z"]),
        8 => session.record(&[b"F", letter, letter, letter]),
        9 => session.record(&[b"P", letter, b"2", b"1"]),
        10 => session.record(&[b"M", b"", b"1"]),
        11 => session.record(&[b"E"]),
        12 => session.record(&[b""]),
        13 | 14 => exercises::interrupting(session, letter),
        15..=18 => stations::interrupting(session),
        19..=22 => rights::interrupting(session, letter),
        _ => forms::wrong_form(session),
    }
}
