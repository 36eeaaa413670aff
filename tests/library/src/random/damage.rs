//! Damage to a value: one thing about it is changed, and whether it is still a
//! draft or a plan is left to whoever is asked. Some damage leaves a plan, and
//! some leaves a draft that is no plan, so the answers aren't all refusals.

use super::Rng;
use crate::values::{Plan, PLACES};

/// What is changed.
#[derive(Clone, Copy, Debug)]
pub enum Damage {
    Digit,
    WrongDigit,
    Longer,
    Shorter,
    Zeroed,
    WordsSwapped,
    PairsSwapped,
    WordRepeated,
    ColumnRepeated,
    ColumnsExchanged,
    LongerAndShorter,
    PairSplit,
    FewerCounted,
    MoreCounted,
    FarCounted,
    Behind,
    PairBehind,
    OtherShape,
    ShapeOutOfRange,
    AllRandom,
}

pub const DAMAGES: [Damage; 20] = [
    Damage::Digit,
    Damage::WrongDigit,
    Damage::Longer,
    Damage::Shorter,
    Damage::Zeroed,
    Damage::WordsSwapped,
    Damage::PairsSwapped,
    Damage::WordRepeated,
    Damage::ColumnRepeated,
    Damage::ColumnsExchanged,
    Damage::LongerAndShorter,
    Damage::PairSplit,
    Damage::FewerCounted,
    Damage::MoreCounted,
    Damage::FarCounted,
    Damage::Behind,
    Damage::PairBehind,
    Damage::OtherShape,
    Damage::ShapeOutOfRange,
    Damage::AllRandom,
];

/// The value with some damage, of any kind.
pub fn damaged(rng: &mut Rng, value: &Plan) -> Plan {
    let damage = *rng.pick(&DAMAGES);
    with_damage(rng, value, damage)
}

/// The value with damage in two places, as far as the first leaves pairs to
/// damage: both columns may have a flaw then.
pub fn damaged_twice(rng: &mut Rng, value: &Plan) -> Plan {
    let once = damaged(rng, value);
    if (1..=PLACES).contains(&once.pairs) {
        damaged(rng, &once)
    } else {
        once
    }
}

/// The value, of 1 to 128 pairs, with this damage.
pub fn with_damage(rng: &mut Rng, value: &Plan, damage: Damage) -> Plan {
    let mut value = *value;
    let here = rng.below(value.pairs);
    let there = rng.below(value.pairs);
    match damage {
        Damage::PairsSwapped => {
            value.from.swap(here, there);
            value.to.swap(here, there);
        }
        Damage::ColumnRepeated => value.to = value.from,
        Damage::ColumnsExchanged => std::mem::swap(&mut value.from, &mut value.to),
        Damage::PairSplit => split_pair(&mut value, here),
        Damage::FewerCounted => value.pairs = rng.below(value.pairs),
        Damage::MoreCounted => value.pairs += rng.between(1, PLACES + 1 - value.pairs),
        Damage::FarCounted => {
            let far = [PLACES + 1, 255, 256, value.pairs | 1 << 32, usize::MAX];
            value.pairs = *rng.pick(&far);
        }
        Damage::Behind | Damage::PairBehind => put_behind(rng, &mut value, damage),
        Damage::OtherShape | Damage::ShapeOutOfRange => change_shape(rng, &mut value, damage),
        Damage::AllRandom => value = random_value(rng),
        _ => {
            let column = some_column(rng, &mut value);
            change_column(rng, column, here, there, damage);
        }
    }
    value
}

fn some_column<'a>(rng: &mut Rng, value: &'a mut Plan) -> &'a mut [u64; PLACES] {
    if rng.chance(50) {
        &mut value.from
    } else {
        &mut value.to
    }
}

/// The damage to words of one column.
fn change_column(
    rng: &mut Rng,
    column: &mut [u64; PLACES],
    here: usize,
    there: usize,
    damage: Damage,
) {
    match damage {
        Damage::Digit => put_digit(rng, &mut column[here], &[1, 2, 3, 4, 5, 6, 7, 8, 9]),
        Damage::WrongDigit => put_digit(rng, &mut column[here], &[0, 10, 11, 12, 13, 14, 15]),
        Damage::Longer => lengthen(rng, &mut column[here]),
        Damage::Shorter => column[here] >>= 4,
        Damage::Zeroed => column[here] = 0,
        Damage::WordsSwapped => column.swap(here, there),
        Damage::WordRepeated => column[here] = column[there],
        Damage::LongerAndShorter => {
            lengthen(rng, &mut column[here]);
            column[there] >>= 4;
        }
        _ => unreachable!("not a damage to one column"),
    }
}

/// Writes one of these over a digit of the word, mostly not the first.
fn put_digit(rng: &mut Rng, word: &mut u64, digits: &[u64]) {
    let length = (u64::BITS - word.leading_zeros()).div_ceil(4).max(1);
    let place = 4 * rng.below(length as usize) as u32;
    *word = *word & !(15 << place) | *rng.pick(digits) << place;
}

/// A way behind the word; of a word of 16 digits the belt goes out above.
fn lengthen(rng: &mut Rng, word: &mut u64) {
    *word = *word << 4 | rng.between(1, 3) as u64;
}

/// Puts the parts of a pair in its place, in order: still a draft, but the
/// parts join. Nothing changes where there is no room, or where other damage
/// has left no ways to split by.
fn split_pair(value: &mut Plan, place: usize) {
    let ways = usize::from(value.arity);
    let full = value.pairs + ways > PLACES + 1;
    let top = |word: u64| word >> 60 != 0;
    if ways < 2 || full || top(value.from[place]) || top(value.to[place]) {
        return;
    }
    for column in [&mut value.from, &mut value.to] {
        let word = column[place] << 4;
        column.copy_within(place + 1..value.pairs, place + ways);
        for way in 1..=ways {
            column[place + way - 1] = word | way as u64;
        }
    }
    value.pairs += ways - 1;
}

/// Something behind the pairs that are counted: any number in one column, or a
/// pair of the table once more.
fn put_behind(rng: &mut Rng, value: &mut Plan, damage: Damage) {
    if value.pairs == PLACES {
        value.pairs -= 1;
        return;
    }
    let place = *rng.pick(&[value.pairs, PLACES - 1]);
    if matches!(damage, Damage::PairBehind) {
        let again = rng.below(value.pairs);
        value.from[place] = value.from[again];
        value.to[place] = value.to[again];
    } else {
        let word = *rng.pick(&[1, 0x11, 1 << 63, u64::MAX]);
        some_column(rng, value)[place] = word;
    }
}

fn change_shape(rng: &mut Rng, value: &mut Plan, damage: Damage) {
    let in_range = matches!(damage, Damage::OtherShape);
    let (arity, roots) = (rng.between(2, 9) as u8, rng.between(1, 9) as u8);
    let (bad_arity, bad_roots) = (*rng.pick(&[0, 1, 10, 255]), *rng.pick(&[0, 10, 11, 255]));
    match (rng.chance(50), in_range) {
        (true, true) => value.arity = arity,
        (false, true) => value.roots = roots,
        (true, false) => value.arity = bad_arity,
        (false, false) => value.roots = bad_roots,
    }
}

/// Random bytes everywhere, the count mostly within the table.
pub fn random_value(rng: &mut Rng) -> Plan {
    let mut value = Plan {
        arity: rng.number() as u8,
        roots: rng.number() as u8,
        pairs: rng.below(PLACES + 2),
        ..Plan::ZERO
    };
    if rng.chance(50) {
        value.arity = value.arity % 8 + 2;
        value.roots = value.roots % 9 + 1;
    }
    for word in value.from.iter_mut().chain(&mut value.to) {
        *word = rng.number();
    }
    value
}
