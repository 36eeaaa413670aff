//! Z with something wrong in it: fields that are not one digit, digits that are no
//! station, and Z while a plan is open. Behind it stands a T, which tells whose
//! count it is and so whether another station was named.

use crate::session::Session;

/// Fields that are wrong as a station; some look like one, some like none.
const BAD_STATIONS: &[&[u8]] = &[
    b"", b"00", b"01", b"07", b"10", b"11", b"17", b"72", b"80", b"-", b"-0", b"-1", b"+1", b" 1",
    b"1 ", b"x", b"A", b"1x", b"1\0", b"1\r", b"/", b":", b"\xff",
];

/// One Z that is wrong, or nearly, and mostly a look at whose count is told.
pub fn step(session: &mut Session) {
    match session.rng.below(8) {
        0..=2 => wrong_form(session),
        3 => wrong_number_of_fields(session),
        _ => {
            let digit = session.rng.between(7, 9);
            session.name_station(digit);
        }
    }
    if session.rng.chance(80) {
        session.record(&[b"T"]);
    }
}

/// Z as it stands in an open plan: with nothing wrong, with a digit that is no
/// station, or with a wrong form.
pub fn interrupting(session: &mut Session) {
    match session.rng.below(6) {
        0 => wrong_form(session),
        1 | 2 => {
            let digit = session.rng.between(8, 9);
            session.naming(digit);
        }
        _ => {
            let digit = session.rng.below(8);
            session.naming(digit);
        }
    }
}

fn wrong_form(session: &mut Session) {
    let field = *session.rng.pick(BAD_STATIONS);
    session.record(&[b"Z", field]);
}

fn wrong_number_of_fields(session: &mut Session) {
    let wrong: &[&[&[u8]]] = &[
        &[b"Z"],
        &[b"Z", b"1", b""],
        &[b"Z", b"1", b"2"],
        &[b"Z", b"8", b"8"],
        &[b"Z", b"", b"1"],
    ];
    let fields = *session.rng.pick(wrong);
    session.record(fields);
}
