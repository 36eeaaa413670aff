//! Sound desks: one with plans that bring up every refusal, and random ones with
//! held and empty slots, any station, any counts and any rights, with and without an
//! open plan.
//! The pairs of an open plan may be anything that M takes.

use library::packed::{plan_value, value, Row};
use library::random::bases::{most_splits, some_shape};
use library::random::{families, plans};
use reference::{Shape, COUNT_LIMIT};

use super::Rng;
use crate::second::letter;
use crate::values::{places_of_rights, Control, Desk, OPEN, SLOTS, STATIONS};

/// ψ in A, φ in B, an exchange of two belts in C (shape 3, 2), the fourteenth
/// power of ψ in D, which has words of 16 digits, and 128 pairs in E; the other
/// slots are empty. Station 2 is named, and station 0 has all the changes there are.
pub fn prepared() -> Desk {
    let shape = Shape { arity: 2, roots: 1 };
    let psi = typed(&[("111", "11"), ("112", "121"), ("12", "122")]);
    let phi = typed(&[("111", "122"), ("112", "121"), ("12", "11")]);
    let belts = Shape { arity: 3, roots: 2 };
    let wide = plans::paired(&mut Rng::new(1), shape, most_splits(shape));
    let deep = plans::kept(shape, &psi).power(14).expect("it is granted");
    let mut desk = Desk::FRESH;
    desk.put(0, &value(shape, &psi));
    desk.put(1, &value(shape, &phi));
    desk.put(2, &value(belts, &typed(&[("1", "2"), ("2", "1")])));
    desk.put(3, &plan_value(&deep));
    desk.put(4, &plan_value(&plans::kept(shape, &wide)));
    desk.control = Control {
        station: 2,
        changes: [COUNT_LIMIT as u32, 1, 5, 0, 7, 8, 9, COUNT_LIMIT as u32 - 1],
        ..Control::FRESH
    };
    desk.settle();
    desk
}

/// The desk with ψ open for a slot, ready to be closed.
pub fn with_psi_open(desk: &Desk, slot: u8) -> Desk {
    let psi = desk.value(0);
    let mut desk = *desk;
    desk.opened = slot;
    desk.put(OPEN, &psi);
    desk
}

fn typed(pairs: &[(&str, &str)]) -> Vec<Row> {
    let rows = pairs.iter();
    rows.map(|(from, to)| ((*from).into(), (*to).into()))
        .collect()
}

/// A desk with at least one held and one empty slot, mostly of one shape.
pub fn some_desk(rng: &mut Rng) -> Desk {
    let shape = some_shape(rng);
    let mut slots: Vec<usize> = (0..SLOTS).collect();
    rng.shuffle(&mut slots);
    slots.truncate(rng.between(1, SLOTS - 1));
    let mut desk = Desk::FRESH;
    desk.control = Control {
        station: rng.below(STATIONS) as u32,
        changes: [(); STATIONS].map(|()| some_count(rng)),
        ..Control::FRESH
    };
    if rng.chance(50) {
        restrict(rng, &mut desk);
    }
    // A plan that grows, whose pairs can be split, reordered and cut short.
    desk.put(slots[0], &value(shape, &families::shift(shape)));
    for slot in &slots[1..] {
        let shape = if rng.chance(80) {
            shape
        } else {
            some_shape(rng)
        };
        desk.put(*slot, &plan_value(&plans::plan(rng, shape)));
    }
    desk.settle();
    if rng.chance(50) {
        open_some(rng, &mut desk);
    }
    desk
}

/// A desk with a plan of as many pairs as fit in every slot, and as many pairs
/// as fit in the open plan.
pub fn full(rng: &mut Rng) -> Desk {
    let shape = some_shape(rng);
    let mut desk = Desk::FRESH;
    for block in 0..=OPEN {
        let rows = plans::paired(rng, shape, most_splits(shape));
        desk.put(block, &plan_value(&plans::kept(shape, &rows)));
    }
    desk.settle();
    let belts = value(shape, &vec![(b"1".to_vec(), b"1".to_vec()); 128]);
    desk.opened = letter(rng.below(SLOTS));
    if rng.chance(50) {
        desk.put(OPEN, &belts);
    }
    desk
}

fn some_count(rng: &mut Rng) -> u32 {
    let limit = COUNT_LIMIT as u32;
    match rng.below(6) {
        0 => limit,
        1 => limit - 1,
        2 => 0,
        3 => rng.number() as u32 % (limit + 1),
        _ => rng.below(1000) as u32,
    }
}

/// Takes rights from the stations, more or less.
pub fn restrict(rng: &mut Rng, desk: &mut Desk) {
    let strict = *rng.pick(&[5, 20, 60]);
    for (station, slot) in places_of_rights() {
        if rng.chance(strict) {
            desk.control.put_right(station, slot, rng.below(3) as u8);
        }
    }
}

/// Opens a plan, perhaps for a slot that is held, with pairs that make a plan,
/// nearly make one, or are words and nothing more.
pub fn open_some(rng: &mut Rng, desk: &mut Desk) {
    let shape = some_shape(rng);
    let mut rows = plans::rows(rng, shape);
    match rng.below(4) {
        0 => rows.truncate(rng.below(rows.len() + 1)),
        1 => {
            let again = rows[rng.below(rows.len())].clone();
            rows.extend(vec![again; 128 - rows.len()]);
        }
        2 => rows.iter_mut().for_each(|row| row.1.truncate(1)),
        _ => {}
    }
    desk.opened = letter(rng.below(SLOTS));
    desk.put(OPEN, &value(shape, &rows));
}
