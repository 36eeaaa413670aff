//! The limits and the first value beyond each: pairs of a plan, digits of a
//! word and of a code, the power, and the bytes of a line.

use crate::plans::{self, Word, MOST_PAIRS};
use crate::session::{name, Session, SLOTS};

/// The limits that can be passed by one: pairs, digits of a word, digits of
/// a code, and the power.
pub fn boundary(session: &mut Session) {
    match session.rng.below(6) {
        0 => full_plan(session),
        1 => overfull_plan(session),
        2 => long_words(session),
        3 => long_code(session),
        _ => power_at_the_limit(session),
    }
}

/// A plan of as many pairs as the shape allows, or 128 pairs that are not a
/// plan.
fn full_plan(session: &mut Session) {
    let slot = session.some_slot();
    let shape = session.some_shape();
    let mut rows = plans::any_plan(&mut session.rng, shape, shape.most_splits());
    if session.rng.chance(30) {
        while rows.len() < MOST_PAIRS {
            let row = rows[session.rng.below(rows.len())].clone();
            rows.push(row);
        }
    }
    session.load(slot, shape, &rows);
    session.enter(slot, shape, rows);
}

/// 129 pairs; the last one sometimes has a wrong word, which is refused first.
fn overfull_plan(session: &mut Session) {
    let slot = session.some_slot();
    let shape = session.some_shape();
    let mut rows = plans::any_plan(&mut session.rng, shape, shape.most_splits());
    while rows.len() < MOST_PAIRS + 1 {
        let row = rows[session.rng.below(rows.len())].clone();
        rows.push(row);
    }
    if session.rng.chance(50) {
        rows[MOST_PAIRS].1 = Word::new();
    }
    session.load(slot, shape, &rows);
}

/// Words of 16 and of 17 digits in either column.
fn long_words(session: &mut Session) {
    let slot = session.some_slot();
    let shape = session.some_shape();
    session.open(slot, shape);
    for _ in 0..session.rng.between(1, 3) {
        let digits = *session.rng.pick(&[15, 16, 16, 17]);
        let long = plans::random_code(&mut session.rng, shape, digits);
        let other = plans::random_code(&mut session.rng, shape, 16);
        if session.rng.chance(50) {
            session.record(&[b"M", &long, &other]);
        } else {
            session.record(&[b"M", &other, &long]);
        }
    }
    session.record(&[b"E"]);
}

fn long_code(session: &mut Session) {
    let slot = session.held_slot();
    let shape = session.slots[slot]
        .as_ref()
        .map_or(session.shapes[0], |held| held.shape);
    let digits = *session.rng.pick(&[1024, 1025, 1024, 1025, 1096]);
    let code = plans::random_code(&mut session.rng, shape, digits);
    session.record(&[b"W", name(slot), &code]);
}

fn power_at_the_limit(session: &mut Session) {
    let a = if session.rng.chance(70) {
        session.held_slot()
    } else {
        session.empty_slot()
    };
    let c = session.some_slot();
    let small = session.slots[a]
        .as_ref()
        .is_some_and(|held| held.rows.len() <= 32);
    let inside: &[&[u8]] = &[b"1000", b"-1000", b"999", b"-999"];
    let outside: &[&[u8]] = &[b"1001", b"-1001", b"9999", b"-9999"];
    let k = if small && session.rng.chance(50) {
        *session.rng.pick(inside)
    } else {
        *session.rng.pick(outside)
    };
    session.record(&[b"K", name(a), k, name(c)]);
}

/// Lines of 1,100 and 1,101 bytes and longer ones, as a route, as a pair of
/// an open plan, or as garbage.
pub fn long_line(session: &mut Session) {
    let length = *session
        .rng
        .pick(&[1099, 1100, 1100, 1101, 1101, 1102, 2200, 5000]);
    let slot = session.held_slot();
    let mut line = match session.rng.below(4) {
        0 => vec![b'W', b'\t', SLOTS[slot], b'\t'],
        1 => {
            let shape = session.some_shape();
            session.open(slot, shape);
            b"M\t1\t".to_vec()
        }
        2 => b"T\t".to_vec(),
        _ => b"x".to_vec(),
    };
    while line.len() < length {
        let byte = *session.rng.pick(b"1111111111112");
        line.push(byte);
    }
    if session.rng.chance(30) {
        // A tail that looks like a record must not be taken for one.
        line.truncate(length - 2);
        line.extend(b"\tT");
    }
    session.record(&[&line]);
}
