//! Records of a wrong form, which is refusal 1: a wrong letter, number of
//! fields or field form, and garbage. Stray bytes are here too, though the
//! form is right where one falls into a word or a code.

use super::BAD_SLOTS;
use crate::session::{name, Session};

/// Slot fields of a wrong form.
const WIDE_SLOTS: &[&[u8]] = &[b"", b"AA", b"A "];

/// Fields that are wrong as n and as r, and those that are wrong as k.
const BAD_NUMBERS: &[&[u8]] = &[
    b"", b"-", b"00", b"01", b"-2", b"+1", b" 1", b"1 ", b"x", b"10", b"1\0",
];
const BAD_POWERS: &[&[u8]] = &[
    b"", b"-", b"-0", b"00", b"01", b"-01", b"+1", b"1x", b"10000", b"--1", b"1\r",
];

/// A good record of any letter, as its fields.
fn some_record(session: &mut Session) -> Vec<Vec<u8>> {
    let a = name(session.held_slot());
    let b = name(session.held_slot());
    let c = name(session.some_slot());
    let fields: Vec<&[u8]> = match session.rng.below(15) {
        0 => vec![b"P", a, b"2", b"1"],
        1 => vec![b"M", b"11", b"12"],
        2 => vec![b"E"],
        3 => vec![b"F", a, b, c],
        4 => vec![b"I", a, c],
        5 => vec![b"K", a, b"2", c],
        6 => vec![b"S", a, b],
        7 => vec![b"W", a, b"1"],
        8 => vec![b"L", a],
        9 => vec![b"C", c],
        10 => vec![b"T"],
        11 => vec![b"X", c, b"2", b"1", b"3", b"7"],
        12 => vec![b"Z", b"1"],
        13 => vec![b"G", b"1", c, b"2"],
        _ => vec![b"U"],
    };
    fields.into_iter().map(<[u8]>::to_vec).collect()
}

fn write(session: &mut Session, fields: &[Vec<u8>]) {
    let fields: Vec<&[u8]> = fields.iter().map(Vec::as_slice).collect();
    session.record(&fields);
}

pub fn wrong_field_count(session: &mut Session) {
    let mut fields = some_record(session);
    match session.rng.below(4) {
        0 => fields.push(Vec::new()),
        1 => fields.push(b"A".to_vec()),
        2 => {
            fields.pop();
        }
        _ => {
            let place = session.rng.below(fields.len());
            fields.insert(place, b"1".to_vec());
        }
    }
    write(session, &fields);
}

/// A wrong letter, slot field, n, r or k; sometimes with a slot that names no
/// slot as well, which must not be what the refusal says.
pub fn wrong_form(session: &mut Session) {
    let slot = session.held_slot();
    let mut letter: &[u8] = name(slot);
    if session.rng.chance(30) {
        letter = *session.rng.pick(BAD_SLOTS);
    }
    let bad = *session.rng.pick(BAD_NUMBERS);
    let bad_power = *session.rng.pick(BAD_POWERS);
    let wide = *session.rng.pick(WIDE_SLOTS);
    match session.rng.below(12) {
        0 | 1 => session.record(&[b"K", letter, bad_power, letter]),
        2 => session.record(&[b"P", letter, bad, b"1"]),
        3 => session.record(&[b"P", letter, b"2", bad]),
        4 => session.record(&[b"F", letter, wide, letter]),
        5 => session.record(&[b"I", wide, letter]),
        6 => session.record(&[b"K", wide, b"1001", letter]),
        7 => session.record(&[b"W", wide, b""]),
        8 => session.record(&[b"X", letter, bad, b"1", b"3", b"7"]),
        9 => session.record(&[b"X", letter, b"2", bad, b"3", b"0"]),
        10 => session.record(&[b"X", wide, b"2", b"1", b"99", b"5"]),
        _ => {
            let unknown = *session.rng.pick(b"ABDHJNOQRVYgptuxz0 ");
            session.record(&[&[unknown], letter]);
        }
    }
}

/// A record with a byte that no good record holds, or bytes by chance.
pub fn stray_bytes(session: &mut Session) {
    let stray = *session.rng.pick(&[0, 9, 13, 13, 255]);
    if session.rng.chance(40) {
        let length = session.rng.below(40);
        let line: Vec<u8> = (0..length)
            .map(|_| session.rng.below(256) as u8)
            .filter(|&byte| byte != b'\n')
            .collect();
        session.record(&[&line]);
        return;
    }
    let mut line = some_record(session).join(&b'\t');
    let place = if session.rng.chance(50) {
        line.len()
    } else {
        session.rng.below(line.len() + 1)
    };
    line.insert(place, stray);
    session.record(&[&line]);
}
