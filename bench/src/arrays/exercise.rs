//! The plan of X (E3) on packed words. A word of 16 digits that would be split ends
//! it at once: its parts would be too long, and so would be all that follows them.

use library::{Plan, PLACES};

use super::words::{digits, Shape};
use super::{kept, WRONG_CODE};

const TOO_MANY_PAIRS: u8 = 5;
const WRONG_SEED: u8 = 17;

const MULTIPLIER: u64 = 16_807;
const MODULUS: u64 = 2_147_483_647;

/// The plan of a shape in its range, reduced, or 17, 5 or 4.
pub fn exercise(shape: Shape, splits: usize, seed: u64) -> Result<Plan, u8> {
    let Shape { arity, roots } = shape;
    if !(1..MODULUS).contains(&seed) {
        return Err(WRONG_SEED);
    }
    let pairs = usize::from(roots) + splits * usize::from(arity - 1);
    if pairs > PLACES {
        return Err(TOO_MANY_PAIRS);
    }
    let mut plan = Plan {
        arity,
        roots,
        pairs,
        ..Plan::ZERO
    };
    let mut last = seed;
    column(shape, splits, &mut last, &mut plan.from)?;
    column(shape, splits, &mut last, &mut plan.to)?;
    for place in (1..pairs).rev() {
        plan.to.swap(place, draw(&mut last, place + 1));
    }
    Ok(kept(&plan))
}

/// The next draw modulo a number of places.
fn draw(last: &mut u64, places: usize) -> usize {
    *last = MULTIPLIER * *last % MODULUS;
    (*last % places as u64) as usize
}

/// Splits the belts so many times, in order all the while; the words behind the
/// one that is split move up.
fn column(
    shape: Shape,
    splits: usize,
    last: &mut u64,
    words: &mut [u64; PLACES],
) -> Result<(), u8> {
    let (arity, mut length) = (usize::from(shape.arity), usize::from(shape.roots));
    for (belt, word) in (1..).zip(&mut words[..length]) {
        *word = belt;
    }
    for _ in 0..splits {
        let place = draw(last, length);
        let word = words[place];
        if digits(word) == 16 {
            return Err(WRONG_CODE);
        }
        words.copy_within(place + 1..length, place + arity);
        for (way, part) in (1..).zip(&mut words[place..place + arity]) {
            *part = word << 4 | way;
        }
        length += arity - 1;
    }
    Ok(())
}
