//! X with something wrong in it: fields of a wrong form, seeds out of their range,
//! and plans beyond the limits. Often two things are wrong at once, so that the
//! order of the refusals shows, and behind it stands a record that shows whether
//! anything was changed.

use super::BAD_SLOTS;
use crate::plans::{self, Shape, MOST_EXERCISED};
use crate::session::{name, Session};

/// Fields that are wrong as s, and those that are wrong as a seed.
const BAD_SPLITS: &[&[u8]] = &[
    b"", b"00", b"01", b"07", b"100", b"-1", b"+1", b" 1", b"1 ", b"x", b"1\r",
];
const BAD_SEEDS: &[&[u8]] = &[
    b"",
    b"00",
    b"01",
    b"0000000001",
    b"10000000000",
    b"00000000000",
    b"-1",
    b"+1",
    b"1 ",
    b"1x",
    b"x",
    b"1\0",
];

/// Seeds of a right form and out of their range; the last two are 1 and 2 for
/// whoever reads them in 32 bits.
const SEEDS_BEYOND: &[usize] = &[
    0,
    0,
    2_147_483_647,
    2_147_483_647,
    2_147_483_648,
    4_294_967_295,
    9_999_999_999,
    4_294_967_297,
    4_294_967_298,
];

/// n, r, s and seeds of plans with a word of 17 digits or more: in the from column
/// alone, in the to column alone and in both. The last three have too many pairs as
/// well, or in their stead.
const PLANS_BEYOND: &[(usize, usize, usize, usize)] = &[
    (2, 1, 99, 5),
    (2, 1, 99, 19),
    (2, 1, 99, 29),
    (2, 1, 99, 195),
    (2, 1, 60, 1),
    (3, 1, 99, 22),
    (3, 1, 99, 74),
    (4, 1, 99, 42),
];

/// Those of plans with such a word, or with 129 pairs, that a join would bring within
/// the limits.
const PLANS_THAT_JOIN: &[(usize, usize, usize, usize)] = &[(2, 9, 99, 1246), (3, 1, 64, 1357)];

/// One X that is wrong, or nearly, and a look at what it left.
pub fn step(session: &mut Session) {
    match session.rng.below(9) {
        0..=2 => wrong_form(session),
        3 | 4 => wrong_seed(session),
        5 => too_many_pairs(session),
        6 => wrong_slot_or_shape(session),
        _ => known_to_be_beyond(session),
    }
    let slot = session.held_slot();
    match session.rng.below(4) {
        0 => session.record(&[b"L", name(slot)]),
        1 => session.record(&[b"U"]),
        2 => session.record(&[b"T"]),
        _ => {}
    }
}

/// X as it stands in an open plan: with nothing wrong, or with everything.
pub fn interrupting(session: &mut Session, letter: &[u8]) {
    let wrong: [&[u8]; 6] = [b"X", b"Z", b"0", b"0", b"99", b"0"];
    match session.rng.below(3) {
        0 => session.record(&wrong),
        1 => session.record(&[b"X", letter, b"2", b"1", b"2", b"01"]),
        _ => session.record(&[b"X", letter, b"2", b"1", b"2", b"1"]),
    }
}

fn some_letter(session: &mut Session) -> &'static [u8] {
    match session.rng.chance(25) {
        true => *session.rng.pick(BAD_SLOTS),
        false => name(session.some_slot()),
    }
}

/// A wrong form of s or of the seed, sometimes next to a later refusal.
fn wrong_form(session: &mut Session) {
    let letter = some_letter(session);
    let n: &[u8] = *session.rng.pick(&[b"2", b"2", b"9", b"1"]);
    let splits = *session.rng.pick(BAD_SPLITS);
    let seed = *session.rng.pick(BAD_SEEDS);
    match session.rng.below(4) {
        0 => session.record(&[b"X", letter, n, b"1", splits, b"1"]),
        1 => session.record(&[b"X", letter, n, b"1", splits, b"0"]),
        2 => session.record(&[b"X", letter, n, b"1", b"3", seed]),
        _ => session.record(&[b"X", letter, n, b"9", b"99", seed]),
    }
}

/// A seed out of its range, often with more pairs than there may be.
fn wrong_seed(session: &mut Session) {
    let letter = some_letter(session);
    let shape = match session.rng.chance(70) {
        true => session.some_shape(),
        false => plans::any_shape(&mut session.rng),
    };
    let splits = *session.rng.pick(&[0, 1, 3, 99, 99, 99]);
    let seed = *session.rng.pick(SEEDS_BEYOND);
    session.exercise_record(letter, shape, splits, seed);
}

/// As many splits as the limit of pairs grants, one more, and many more.
fn too_many_pairs(session: &mut Session) {
    let slot = session.some_slot();
    let n = session.rng.between(3, 9);
    let r = session.rng.between(1, 9);
    let shape = Shape { n, r };
    let most = shape.most_splits();
    let more = *session
        .rng
        .pick(&[most, most + 1, most + 1, MOST_EXERCISED]);
    let seed = session.some_seed();
    session.exercise_record(name(slot), shape, more.min(MOST_EXERCISED), seed);
}

/// A slot that is none, or n or r out of its range, next to later refusals.
fn wrong_slot_or_shape(session: &mut Session) {
    let letter = some_letter(session);
    let n = *session.rng.pick(&[0, 1, 2, 9]);
    let r = *session.rng.pick(&[0, 0, 1, 9]);
    let splits = *session.rng.pick(&[0, 3, 99]);
    let seed = *session.rng.pick(&[0, 1, 5, 2_147_483_647]);
    session.exercise_record(letter, Shape { n, r }, splits, seed);
}

fn known_to_be_beyond(session: &mut Session) {
    let slot = session.some_slot();
    let plans = match session.rng.chance(30) {
        true => PLANS_THAT_JOIN,
        false => PLANS_BEYOND,
    };
    let (n, r, splits, seed) = *session.rng.pick(plans);
    session.exercise_record(name(slot), Shape { n, r }, splits, seed);
}
