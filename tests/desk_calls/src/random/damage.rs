//! Every way to make a desk into something that is none: each changes one thing
//! about a sound desk and always breaks a rule, so that each must be refused with
//! 15. Where a desk has nothing that a damage could be done to, it stays sound,
//! and another place is tried. The sum of the pairs is what the spoiled counts come to,
//! so that it never is the reason; where it is the damage itself, the rest is sound.

use library::random::damage::{with_damage, Damage};
use library::{Plan, PLACES};
use reference::COUNT_LIMIT;

use super::{desks, Rng};
use crate::values::{Desk, OPEN, SLOTS, STATIONS};

/// A damage and its name.
pub type Named = (&'static str, fn(&mut Rng, &mut Desk));

/// What is done to a held slot, or to what is left of one.
pub const OF_HELD: [Named; 17] = [
    ("arity out of range", |rng, desk| {
        desk.blocks[held(rng, desk)].arity = *rng.pick(&[0, 1, 10, 255]);
    }),
    ("roots out of range", |rng, desk| {
        desk.blocks[held(rng, desk)].roots = *rng.pick(&[0, 10, 255]);
    }),
    ("fewer counted", |rng, desk| {
        let slot = held(rng, desk);
        desk.blocks[slot].pairs = rng.below(desk.blocks[slot].pairs);
    }),
    ("more counted", |rng, desk| {
        let pairs = &mut desk.blocks[held(rng, desk)].pairs;
        *pairs += rng.between(1, PLACES + 1 - *pairs);
    }),
    ("far counted", |rng, desk| {
        let pairs = &mut desk.blocks[held(rng, desk)].pairs;
        *pairs = some_far_count(rng, *pairs);
    }),
    ("counts that even each other out", |rng, desk| {
        let (more, fewer) = (held(rng, desk), empty(rng, desk));
        let by = *rng.pick(&[1, 128, 1 << 16, 1 << 63, usize::MAX]);
        for (slot, by) in [(more, by), (fewer, by.wrapping_neg())] {
            let pairs = &mut desk.blocks[slot].pairs;
            *pairs = pairs.wrapping_add(by);
        }
    }),
    ("block without words", |rng, desk| {
        let slot = held(rng, desk);
        desk.words(slot).fill(0);
    }),
    ("words without block", |rng, desk| {
        let slot = held(rng, desk);
        desk.blocks[slot] = Default::default();
    }),
    ("word behind", |rng, desk| in_held(rng, desk, put_behind)),
    ("unreduced", |rng, desk| {
        in_held(rng, desk, |rng, plan| {
            *plan = with_damage(rng, plan, Damage::PairSplit);
        });
    }),
    ("out of order", |rng, desk| {
        in_held(rng, desk, |rng, plan| {
            *plan = with_damage(rng, plan, Damage::PairsSwapped);
        });
    }),
    ("overlap of equal words", |rng, desk| {
        in_held(rng, desk, |rng, plan| {
            let (here, there) = (rng.below(plan.pairs), rng.below(plan.pairs));
            let column = some_column(rng, plan);
            column[here] = column[there];
        });
    }),
    ("overlap of a beginning", |rng, desk| {
        in_held(rng, desk, |rng, plan| {
            let here = rng.below(plan.pairs);
            let word = &mut some_column(rng, plan)[here];
            // a belt has no beginning that is a word
            *word >>= if *word > 15 { 4 } else { 0 };
        });
    }),
    ("gap", |rng, desk| {
        in_held(rng, desk, |rng, plan| {
            let here = rng.below(plan.pairs);
            let word = &mut some_column(rng, plan)[here];
            if *word >> 60 == 0 {
                *word = *word << 4 | 1;
            }
        });
    }),
    ("wrong digit", |rng, desk| {
        in_held(rng, desk, put_wrong_digit)
    }),
    ("zero digit inside", |rng, desk| {
        in_held(rng, desk, put_zero_digit)
    }),
    ("word zeroed", |rng, desk| {
        in_held(rng, desk, |rng, plan| {
            let here = rng.below(plan.pairs);
            some_column(rng, plan)[here] = 0;
        });
    }),
];

/// What is put into an empty slot.
pub const OF_EMPTY: [Named; 5] = [
    ("arity in an empty slot", |rng, desk| {
        desk.blocks[empty(rng, desk)].arity = rng.between(1, 255) as u8;
    }),
    ("roots in an empty slot", |rng, desk| {
        desk.blocks[empty(rng, desk)].roots = rng.between(1, 255) as u8;
    }),
    ("count in an empty slot", |rng, desk| {
        desk.blocks[empty(rng, desk)].pairs = *rng.pick(&[1, 128, 1 << 32, usize::MAX]);
    }),
    ("word in an empty slot", |rng, desk| {
        let slot = empty(rng, desk);
        let place = rng.below(2 * PLACES);
        desk.words(slot)[place] = *rng.pick(&[1, 0x11, 1 << 63, u64::MAX]);
    }),
    ("no pairs in a slot", |rng, desk| {
        let slot = empty(rng, desk);
        desk.blocks[slot].arity = rng.between(2, 9) as u8;
        desk.blocks[slot].roots = rng.between(1, 9) as u8;
    }),
];

/// What is done to a desk with an open plan.
pub const OF_OPEN: [Named; 11] = [
    ("open for no slot", |rng, desk| {
        desk.opened = no_slot(rng);
    }),
    ("open plan without a letter", |_, desk| desk.opened = 0),
    ("letter without an open plan", |rng, desk| {
        let letter = b'A' + rng.below(SLOTS) as u8;
        *desk = desk.without_open();
        desk.opened = letter;
    }),
    ("no slot and no open plan", |rng, desk| {
        *desk = desk.without_open();
        desk.opened = no_slot(rng);
    }),
    ("size left when none is open", |rng, desk| {
        *desk = desk.without_open();
        match rng.below(3) {
            0 => desk.blocks[OPEN].arity = rng.between(1, 255) as u8,
            1 => desk.blocks[OPEN].roots = rng.between(1, 255) as u8,
            _ => desk.blocks[OPEN].pairs = *rng.pick(&[1, 128, usize::MAX]),
        }
    }),
    ("word left when none is open", |rng, desk| {
        *desk = desk.without_open();
        let place = rng.below(2 * PLACES);
        desk.words(OPEN)[place] = *rng.pick(&[1, 0x11, u64::MAX]);
    }),
    ("shape of an open plan", |rng, desk| {
        if rng.chance(50) {
            desk.blocks[OPEN].arity = *rng.pick(&[0, 1, 10, 255]);
        } else {
            desk.blocks[OPEN].roots = *rng.pick(&[0, 10, 255]);
        }
    }),
    ("count of an open plan", |rng, desk| {
        let pairs = desk.blocks[OPEN].pairs;
        desk.blocks[OPEN].pairs = match rng.below(3) {
            0 if pairs > 0 => pairs - 1,
            1 => pairs + 1,
            _ => some_far_count(rng, pairs),
        };
    }),
    ("junk behind an open plan", |rng, desk| {
        in_block(rng, desk, OPEN, put_behind);
    }),
    ("wrong digit in an open plan", |rng, desk| {
        in_block(rng, desk, OPEN, put_wrong_digit);
    }),
    ("zero digit in an open plan", |rng, desk| {
        in_block(rng, desk, OPEN, put_zero_digit);
    }),
];

/// What is done to the stations.
pub const OF_STATIONS: [Named; 3] = [
    ("no station", |rng, desk| {
        desk.control.station = some_far_station(rng, desk.control.station);
    }),
    ("count above its limit", |rng, desk| {
        *desk.count() = some_count_above(rng);
    }),
    ("another station's count above its limit", |rng, desk| {
        let other = desk.control.station as usize + rng.between(1, STATIONS - 1);
        desk.control.changes[other % STATIONS] = some_count_above(rng);
    }),
];

/// What is done to the rights: 3 is none.
pub const OF_RIGHTS: [Named; 4] = [
    ("a right of 3", |rng, desk| {
        let station = rng.between(1, STATIONS - 1);
        let slot = rng.below(SLOTS);
        desk.control.put_right(station, slot, 3);
    }),
    ("a right of 3 on the last slot", |rng, desk| {
        let station = rng.between(1, STATIONS - 1);
        desk.control.put_right(station, SLOTS - 1, 3);
    }),
    ("a right of 3 of the last station", |rng, desk| {
        let slot = rng.below(SLOTS);
        desk.control.put_right(STATIONS - 1, slot, 3);
    }),
    ("rights of 3 of one station", |rng, desk| {
        let station = rng.between(1, STATIONS - 1);
        (0..SLOTS).for_each(|slot| desk.control.put_right(station, slot, 3));
    }),
];

/// What is done to the sum of the pairs: it is off by a little, by all or by much, in
/// its low bits or in its high ones, or by the pairs of an open plan.
pub const OF_SUM: [Named; 7] = [
    ("a sum one too high", |_, desk| desk.control.pairs += 1),
    ("a sum one too low", |_, desk| {
        desk.control.pairs = desk.control.pairs.wrapping_sub(1);
    }),
    ("a sum of nothing", |_, desk| desk.control.pairs = 0),
    ("a sum of every bit", |_, desk| {
        desk.control.pairs = u16::MAX
    }),
    ("a sum with another bit", |rng, desk| {
        desk.control.pairs ^= 1 << rng.below(16);
    }),
    ("a sum without a slot", |rng, desk| {
        let slot = held(rng, desk);
        desk.control.pairs -= desk.blocks[slot].pairs as u16;
    }),
    ("a sum with the open plan", |rng, desk| {
        if desk.blocks[OPEN].pairs == 0 {
            desks::open_some(rng, desk);
        }
        desk.control.pairs += desk.blocks[OPEN].pairs as u16;
    }),
];

pub fn all() -> Vec<Named> {
    let others: [&[Named]; 4] = [&OF_OPEN, &OF_STATIONS, &OF_RIGHTS, &OF_SUM];
    [&OF_HELD[..], &OF_EMPTY, &others.concat()].concat()
}

/// Whether a damage is one of these.
fn is_of(damages: &[Named], damage: Named) -> bool {
    damages.iter().any(|(name, _)| *name == damage.0)
}

/// The desk with this damage, done where the desk has room for it.
pub fn damaged(rng: &mut Rng, desk: &Desk, damage: Named) -> Desk {
    for _ in 0..1000 {
        let mut base = *desk;
        if is_of(&OF_OPEN, damage) {
            desks::open_some(rng, &mut base);
        }
        let mut spoiled = base;
        damage.1(rng, &mut spoiled);
        if !is_of(&OF_SUM, damage) {
            spoiled.settle();
        }
        let sound = is_of(&OF_SUM, damage) && spoiled.control == base.control;
        if spoiled != base && !sound {
            return spoiled;
        }
    }
    panic!("there is no room for `{}` in {desk:?}", damage.0);
}

fn some_count_above(rng: &mut Rng) -> u32 {
    let limit = COUNT_LIMIT as u32;
    *rng.pick(&[limit + 1, limit + 2, u32::MAX - 1, u32::MAX])
}

/// Numbers that aren't stations: the first ones, a digit, and those that a narrower
/// number would take for the named station.
fn some_far_station(rng: &mut Rng, station: u32) -> u32 {
    let far = [
        8,
        9,
        station + 8,
        station + u32::from(b'0'),
        128,
        255,
        256,
        station | 1 << 8,
        station | 1 << 16,
        station | 1 << 31,
        u32::MAX,
    ];
    *rng.pick(&far)
}

/// Every number up to 511 that isn't a station, each station with one bit above those
/// set, and the largest number.
pub fn far_stations() -> impl Iterator<Item = u32> {
    let with_a_bit = (9..32).flat_map(|bit| (0..STATIONS as u32).map(move |n| n | 1 << bit));
    (STATIONS as u32..512).chain(with_a_bit).chain([u32::MAX])
}

fn held(rng: &mut Rng, desk: &Desk) -> usize {
    some_slot(rng, |slot| !desk.is_empty(slot))
}

fn empty(rng: &mut Rng, desk: &Desk) -> usize {
    some_slot(rng, |slot| desk.is_empty(slot))
}

fn some_slot(rng: &mut Rng, fits: impl Fn(usize) -> bool) -> usize {
    let slots: Vec<usize> = (0..SLOTS).filter(|slot| fits(*slot)).collect();
    *rng.pick(&slots)
}

fn in_held(rng: &mut Rng, desk: &mut Desk, spoil: fn(&mut Rng, &mut Plan)) {
    let slot = held(rng, desk);
    in_block(rng, desk, slot, spoil);
}

fn in_block(rng: &mut Rng, desk: &mut Desk, block: usize, spoil: fn(&mut Rng, &mut Plan)) {
    let mut value = desk.value(block);
    spoil(rng, &mut value);
    desk.put(block, &value);
}

fn some_column<'a>(rng: &mut Rng, plan: &'a mut Plan) -> &'a mut [u64; PLACES] {
    if rng.chance(50) {
        &mut plan.from
    } else {
        &mut plan.to
    }
}

fn put_behind(rng: &mut Rng, plan: &mut Plan) {
    if plan.pairs < PLACES {
        let place = rng.between(plan.pairs, PLACES - 1);
        some_column(rng, plan)[place] = *rng.pick(&[1, 0x11, 1 << 63, u64::MAX]);
    }
}

/// A digit above the belts or the ways, at any place of a word.
fn put_wrong_digit(rng: &mut Rng, plan: &mut Plan) {
    if plan.pairs == 0 {
        return;
    }
    let (here, arity, roots) = (rng.below(plan.pairs), plan.arity, plan.roots);
    let word = &mut some_column(rng, plan)[here];
    let digits = length(*word);
    let place = rng.below(digits);
    let most = if place + 1 == digits { roots } else { arity };
    put_digit(word, place, rng.between(usize::from(most) + 1, 15) as u64);
}

/// A zero at any place of a word but that of its belt.
fn put_zero_digit(rng: &mut Rng, plan: &mut Plan) {
    if plan.pairs == 0 {
        return;
    }
    let here = rng.below(plan.pairs);
    let word = &mut some_column(rng, plan)[here];
    if length(*word) > 1 {
        put_digit(word, rng.below(length(*word) - 1), 0);
    }
}

/// Writes a digit; place 0 is that of the last one.
fn put_digit(word: &mut u64, place: usize, digit: u64) {
    *word = *word & !(15 << (4 * place)) | digit << (4 * place);
}

fn length(word: u64) -> usize {
    (u64::BITS - word.leading_zeros()).div_ceil(4) as usize
}

fn no_slot(rng: &mut Rng) -> u8 {
    *rng.pick(&[1, 8, b'@', b'I', b'a', 255])
}

/// Counts that a narrower number would take for that of the pairs, and others
/// beyond the table.
fn some_far_count(rng: &mut Rng, pairs: usize) -> usize {
    let far = [
        PLACES + 1,
        255,
        pairs | 1 << 8,
        pairs | 1 << 16,
        pairs | 1 << 32,
        pairs | 1 << 63,
        usize::MAX,
    ];
    *rng.pick(&far)
}
