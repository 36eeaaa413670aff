//! G with something wrong in it: fields of a wrong form, stations and slots that
//! there aren't, station 0, another station's G, and G while a plan is open; and
//! records that lack a right where more is wrong with them. Often two things are
//! wrong at once, so that the order of the refusals shows, and behind G stands a
//! record that shows whether anything was given.

use super::BAD_SLOTS;
use crate::session::{name, Session, SLOTS, STATIONS};

/// Fields that are wrong as a right; those that are wrong as a station besides.
const BAD_RIGHTS: &[&[u8]] = &[
    b"3", b"4", b"9", b"", b"00", b"01", b"02", b"10", b"20", b"-0", b"-1", b"+1", b" 1", b"1 ",
    b"x", b"A", b"1\0", b"1\r", b"\0", b"/", b":",
];
const BAD_STATIONS: &[&[u8]] = &[b"", b"01", b"10", b"11", b"-1", b"+1", b"x", b"A", b"1 "];

/// One G that is wrong, or nearly, and a look at what it left; or a record that
/// lacks a right.
pub fn step(session: &mut Session) {
    match session.rng.below(12) {
        0 | 1 => wrong_form(session),
        2 => wrong_number_of_fields(session),
        3..=5 => return wrong_value(session),
        6 => return interrupted_gift(session),
        _ => return missing_right(session),
    }
    look(session);
}

/// G as it stands in an open plan: with nothing wrong, with everything, or with a
/// right above 2.
pub fn interrupting(session: &mut Session, letter: &[u8]) {
    match session.rng.below(5) {
        0 => session.record(&[b"G", b"8", b"Z", b"0"]),
        1 => session.record(&[b"G", b"9", letter, b"0"]),
        2 => session.record(&[b"G", b"1", letter, b"3"]),
        _ => {
            let station = b"01234567"[session.rng.below(8)];
            let right = b"012"[session.rng.below(3)];
            session.record(&[b"G", &[station], letter, &[right]]);
        }
    }
}

/// The named station tries a slot, or another one does.
fn look(session: &mut Session) {
    let slot = session.held_slot();
    if session.rng.chance(40) {
        let station = session.some_haulier();
        session.name_station(station);
    }
    match session.rng.below(4) {
        0 => session.record(&[b"U"]),
        1 => session.record(&[b"T"]),
        _ => session.try_slot(slot),
    }
}

fn some_letter(session: &mut Session) -> &'static [u8] {
    match session.rng.chance(30) {
        true => *session.rng.pick(BAD_SLOTS),
        false => name(session.held_slot()),
    }
}

/// A wrong form of the right, of the station or of the slot.
fn wrong_form(session: &mut Session) {
    let letter = some_letter(session);
    let station: &[u8] = *session.rng.pick(&[b"1", b"2", b"7", b"0", b"8"]);
    let right = match session.rng.chance(30) {
        true => b"3",
        false => *session.rng.pick(BAD_RIGHTS),
    };
    let other = *session.rng.pick(BAD_STATIONS);
    match session.rng.below(6) {
        0 => session.record(&[b"G", other, letter, b"0"]),
        1 => session.record(&[b"G", station, b"AA", b"0"]),
        2 => session.record(&[b"G", station, b"", b"0"]),
        _ => session.record(&[b"G", station, letter, right]),
    }
}

fn wrong_number_of_fields(session: &mut Session) {
    let letter = some_letter(session);
    let wrong: &[&[&[u8]]] = &[
        &[b"G"],
        &[b"G", b"1"],
        &[b"G", b"1", letter],
        &[b"G", b"1", letter, b"0", b""],
        &[b"G", b"1", letter, b"0", b"1"],
        &[b"G", b"1", b"", letter, b"0"],
    ];
    let fields = *session.rng.pick(wrong);
    session.record(fields);
}

/// 18, 8 and 19 alone and beside each other, from station 0 and from another. The
/// station that would have got the right tries the slot.
fn wrong_value(session: &mut Session) {
    let giver = match session.rng.chance(30) {
        true => 0,
        false => session.some_haulier(),
    };
    session.name_station(giver);
    let slot = session.held_slot();
    let letter = match session.rng.chance(30) {
        true => *session.rng.pick(BAD_SLOTS),
        false => name(slot),
    };
    let station = match session.rng.below(5) {
        0 => session.some_haulier(),
        1 | 2 => giver,
        3 => session.rng.between(STATIONS, 9),
        _ => 0,
    };
    let right = session.rng.below(3);
    session.give(station, letter, right);
    try_as(session, station, slot);
}

/// A turn of station 0 with a plan, and a gift in the middle of it.
fn interrupted_gift(session: &mut Session) {
    session.name_station(0);
    let (station, slot) = (session.some_haulier(), session.held_slot());
    let target = session.some_slot();
    let shape = session.some_shape();
    session.open(target, shape);
    if session.rng.chance(50) {
        session.record(&[b"M", b"1", b"1"]);
    }
    let right = b"012"[session.rng.below(3)];
    session.record(&[b"G", &[b'0' + station as u8], name(slot), &[right]]);
    try_as(session, station, slot);
}

/// A station tries a slot, if there is such a station.
fn try_as(session: &mut Session, station: usize, slot: usize) {
    if station < STATIONS {
        session.name_station(station);
    }
    for _ in 0..session.rng.between(1, 2) {
        session.try_slot(slot);
    }
}

/// A station without some right, which it was just not given or lacks by the book,
/// and a record with something else wrong too.
fn missing_right(session: &mut Session) {
    let (station, slot) = session.lacking().unwrap_or_else(|| {
        let (station, slot) = (session.some_haulier(), session.held_slot());
        session.name_station(0);
        let right = session.rng.below(2);
        session.give(station, name(slot), right);
        (station, slot)
    });
    session.name_station(station);
    let lacking = name(slot);
    let bad = *session.rng.pick(BAD_SLOTS);
    let empty = name(session.empty_slot());
    let other = name(session.rng.below(SLOTS.len()));
    let k: &[u8] = *session
        .rng
        .pick(&[b"1001" as &[u8], b"-1001", b"9999", b"2", b"15"]);
    match session.rng.below(24) {
        0 => session.record(&[b"S", lacking, bad]),
        1 => session.record(&[b"S", bad, lacking]),
        2 => session.record(&[b"F", lacking, lacking, bad]),
        3 => session.record(&[b"I", lacking, bad]),
        4 => session.record(&[b"K", bad, k, lacking]),
        5 | 19 => session.record(&[b"K", lacking, k, other]),
        6 | 20 => session.record(&[b"K", other, k, lacking]),
        7 => session.record(&[b"S", empty, lacking]),
        8 => session.record(&[b"S", lacking, empty]),
        9 => session.record(&[b"I", empty, lacking]),
        10 => session.record(&[b"F", empty, lacking, other]),
        11 => session.record(&[b"F", other, empty, lacking]),
        12 => session.record(&[b"F", lacking, lacking, lacking]),
        13 => session.record(&[b"P", lacking, b"0", b"1"]),
        14 => session.record(&[b"X", lacking, b"2", b"0", b"3", b"0"]),
        15 => session.record(&[b"X", lacking, b"9", b"9", b"99", b"1"]),
        16 => session.record(&[b"W", lacking, b"x"]),
        17 | 21 | 22 => session.record(&[b"C", lacking]),
        18 => session.record(&[b"P", lacking, b"2", b"0"]),
        _ => session.record(&[b"L", lacking]),
    }
}
