//! Random records without text, mostly ones that a desk can do.

use super::Rng;
use crate::values::Job;

/// Exponents at the limits of the paper and of the numbers that hold them, and
/// some that a narrower number would take for small ones.
pub const EXPONENTS: [i32; 18] = [
    0,
    1,
    -1,
    2,
    -3,
    14,
    15,
    999,
    1000,
    -1000,
    1001,
    -1001,
    (1 << 8) + 1,
    (1 << 16) + 1,
    -(1 << 16),
    i32::MAX,
    i32::MIN,
    i32::MIN + 1,
];

/// Seeds at the limits of the paper and of the numbers that hold them, and some
/// that a narrower number would take for others.
pub const SEEDS: [u64; 16] = [
    0,
    1,
    2,
    5,
    2_147_483_645,
    2_147_483_646,
    2_147_483_647,
    2_147_483_648,
    (1 << 32) - 1,
    1 << 32,
    (1 << 32) + 1,
    9_999_999_999,
    (1 << 63) + 1,
    u64::MAX - 1,
    u64::MAX,
    u64::MAX / 2,
];

/// A job of a letter that has jobs, its slots mostly slots and its station mostly
/// one or nearly.
pub fn some_job(rng: &mut Rng) -> Job {
    let letter = *rng.pick(b"PEEFFFIKKSSCTTXXZZGGHH");
    let mut job = Job {
        letter,
        a: some_slot(rng),
        b: some_slot(rng),
        c: some_slot(rng),
        k: some_exponent(rng),
        seed: some_seed(rng),
        splits: some_splits(rng),
    };
    if matches!(letter, b'P' | b'X') && rng.chance(90) {
        job.b = rng.between(1, 10) as u8;
        job.c = rng.between(0, 10) as u8;
    }
    if matches!(letter, b'Z' | b'G') && rng.chance(90) {
        job.a = rng.between(0, 9) as u8;
    }
    if letter == b'G' && rng.chance(90) {
        job.c = rng.between(0, 3) as u8;
    }
    job
}

/// A job of any letter with anything in its fields.
pub fn any_job(rng: &mut Rng, letter: u8) -> Job {
    Job {
        letter,
        a: rng.number() as u8,
        b: rng.number() as u8,
        c: rng.number() as u8,
        k: rng.number() as i32,
        seed: rng.number(),
        splits: rng.number() as u8,
    }
}

fn some_slot(rng: &mut Rng) -> u8 {
    match rng.below(40) {
        0 => *rng.pick(b"@Ia\0"),
        1 => rng.number() as u8,
        _ => b'A' + rng.below(8) as u8,
    }
}

fn some_exponent(rng: &mut Rng) -> i32 {
    match rng.below(3) {
        0 => *rng.pick(&EXPONENTS),
        1 => rng.number() as i32,
        _ => rng.between(0, 12) as i32 - 6,
    }
}

fn some_seed(rng: &mut Rng) -> u64 {
    match rng.below(6) {
        0 => *rng.pick(&SEEDS),
        1 => rng.number(),
        _ => 1 + rng.number() % 2_147_483_646,
    }
}

/// Mostly few enough for a plan; some are more than a line has digits for.
fn some_splits(rng: &mut Rng) -> u8 {
    match rng.below(6) {
        0 => rng.number() as u8,
        1 => rng.between(0, 99) as u8,
        _ => rng.between(0, 12) as u8,
    }
}
