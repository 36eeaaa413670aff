//! Records without text: every letter, every number in the fields of P and X, and
//! long chains of jobs.

use super::side_by_side::SideBySide;
use crate::calls::Calls;
use crate::random::desks::{prepared, some_desk, with_psi_open};
use crate::random::jobs::{any_job, some_job, EXPONENTS, SEEDS};
use crate::random::Rng;
use crate::values::{Desk, Job};

/// All letters on a desk with a plan open and on one without, with fields that
/// mostly would do and with any.
pub fn of_every_letter(calls: &dyn Calls) {
    let mut rng = Rng::new(401);
    let mut both = SideBySide::new(calls, &Desk::FRESH);
    for desk in [prepared(), with_psi_open(&prepared(), b'H'), Desk::FRESH] {
        for letter in 0..=255 {
            let fit = Job {
                letter,
                ..some_job(&mut rng)
            };
            for job in [any_job(&mut rng, letter), fit] {
                both.start(&desk);
                both.job(job);
            }
        }
    }
    both.tally.demand(2, &["0", "1", "2", "8"]);
}

/// Jobs on random desks, one after another, with pairs put into open plans.
pub fn in_chains(calls: &dyn Calls) {
    let mut rng = Rng::new(402);
    let mut both = SideBySide::new(calls, &Desk::FRESH);
    for _ in 0..80 {
        both.start(&some_desk(&mut rng));
        for _ in 0..40 {
            let open = both.job(some_job(&mut rng)).number == 0 && both.desk().opened != 0;
            if open && rng.chance(70) {
                both.line(b"M\t1\t1");
            }
        }
    }
    both.tally
        .demand(10, &["0", "2", "3", "8", "9", "10", "11", "12", "16", "17"]);
    both.tally
        .demand(10, &["X 0", "X 1", "X 3", "X 5", "X 16", "X 17"]);
    both.tally
        .demand(10, &["Z 0", "Z 2", "Z 18", "H 0", "H 2", "H 19"]);
    both.tally.demand(2, &["7F"]);
}

/// K of these; a field that it doesn't have names a slot too.
fn power(a: u8, k: i32, b: u8) -> Job {
    Job {
        letter: b'K',
        a,
        b,
        c: b'G',
        k,
        ..Job::default()
    }
}

/// Every n and every r for P, and exponents at all limits, also of slots that
/// are empty or of plans whose powers are too large.
pub fn of_every_number(calls: &dyn Calls) {
    let mut both = SideBySide::new(calls, &Desk::FRESH);
    let desk = prepared();
    let opening = |a, b, c| Job {
        letter: b'P',
        a,
        b,
        c,
        ..Job::default()
    };
    for number in 0..=255 {
        for job in [
            opening(b'F', number, 1),
            opening(b'A', 2, number),
            opening(number, 2, 1),
            opening(b'F', number, number),
        ] {
            both.start(&desk);
            both.job(job);
            both.line(b"M\t1\t1");
            both.job(Job {
                letter: b'E',
                ..Job::default()
            });
        }
    }
    for k in EXPONENTS.into_iter().chain(-20..20) {
        for operand in *b"ABCDFZ" {
            for target in *b"AFZ" {
                both.start(&desk);
                both.job(power(operand, k, target));
            }
        }
    }
    both.tally.demand(10, &["0", "3", "8", "9", "11", "12"]);
}

/// X of these numbers in this slot.
fn exercise(a: u8, [n, r, splits]: [u8; 3], seed: u64) -> Job {
    Job {
        letter: b'X',
        a,
        b: n,
        c: r,
        // a field that X doesn't have
        k: 1001,
        seed,
        splits,
    }
}

/// Every slot, n and r for X, and seeds at all limits; on desks at the limit of the
/// count and not, and with a plan open.
pub fn of_every_exercise(calls: &dyn Calls) {
    let mut both = SideBySide::new(calls, &Desk::FRESH);
    let mut full = prepared();
    *full.count() = 4_000_000_000;
    for desk in [prepared(), full] {
        for number in 0..=255 {
            for job in [
                exercise(b'A', [number, 1, 3], 7),
                exercise(b'F', [2, number, 3], 7),
                exercise(number, [2, 1, 3], 7),
                exercise(b'E', [number, number, 99], 0),
                exercise(b'E', [number, number, 100], 0),
            ] {
                both.start(&desk);
                both.job(job);
            }
        }
        for seed in SEEDS {
            for fields in [[2, 1, 3], [2, 1, 99], [3, 2, 99], [1, 1, 3], [9, 9, 255]] {
                both.start(&desk);
                both.job(exercise(b'B', fields, seed));
                both.start(&with_psi_open(&desk, b'B'));
                both.job(exercise(b'B', fields, seed));
            }
        }
    }
    both.tally.demand(
        10,
        &["X 0", "X 1", "X 2", "X 3", "X 5", "X 8", "X 16", "X 17"],
    );
    both.tally.demand(2, &["X 4"]);
}

/// Every number of splits for X, with nothing else wrong and with all that can be:
/// with a plan open and without, at the limit of the count and not, and on values
/// that are no desk.
pub fn of_every_splits(calls: &dyn Calls) {
    let mut both = SideBySide::new(calls, &Desk::FRESH);
    let desks = sound_desks();
    for splits in 0..=255 {
        for job in [
            exercise(b'F', [2, 1, splits], 87),
            exercise(b'A', [2, 1, splits], 5),
            exercise(b'G', [2, 9, splits], 1246),
            exercise(b'A', [3, 1, splits], 22),
            exercise(b'H', [9, 9, splits], 2_147_483_646),
            exercise(b'A', [9, 9, splits], 0),
            exercise(b'A', [10, 1, splits], 0),
            exercise(b'@', [1, 0, splits], 0),
        ] {
            for desk in &desks {
                both.start(desk);
                let number = both.job(job).number;
                assert_eq!(number == 1, splits > 99, "{number} to {job:?}");
                both.start(&no_desk(desk));
                assert_eq!(both.job(job).number, 15, "to {job:?}");
            }
        }
        for desk in &desks {
            splits_of_others(&mut both, desk, splits);
        }
    }
    both.tally.demand(
        100,
        &[
            "X 0", "X 1", "X 2", "X 3", "X 5", "X 8", "X 15", "X 16", "X 17",
        ],
    );
    both.tally.demand(10, &["0", "X 4"]);
}

/// The letters that have no splits, so that any number does.
fn splits_of_others(both: &mut SideBySide, desk: &Desk, splits: u8) {
    for letter in *b"PEFIKSCTZGH" {
        let [b, c] = match letter {
            b'P' => [2, 1],
            b'G' => [b'B', 1],
            _ => *b"BG",
        };
        let job = Job {
            letter,
            a: if b"ZG".contains(&letter) { 3 } else { b'A' },
            b,
            c,
            k: 2,
            splits,
            ..Job::default()
        };
        both.start(desk);
        assert_ne!(both.job(job).number, 1, "to {job:?}");
    }
}

/// The prepared desk and the same at the limit of the count, with a plan open and
/// without.
fn sound_desks() -> [Desk; 4] {
    let desk = prepared();
    let mut full = desk;
    *full.count() = 4_000_000_000;
    let [open, full_and_open] = [desk, full].map(|desk| with_psi_open(&desk, b'F'));
    [desk, full, open, full_and_open]
}

/// The desk with a word behind the pairs of slot A, which makes it none.
fn no_desk(desk: &Desk) -> Desk {
    let mut spoiled = *desk;
    spoiled.words(0)[3] = 0x1;
    spoiled
}

/// X in a line and by number, with the same fields: one answer and one desk. A
/// number of splits has one to three digits in the line.
pub fn beside_lines(calls: &dyn Calls) {
    let mut rng = Rng::new(403);
    let mut both = SideBySide::new(calls, &Desk::FRESH);
    for turn in 0..600 {
        let n = rng.between(1, 9) as u8;
        let r = rng.between(if turn % 20 == 0 { 0 } else { 1 }, 9) as u8;
        let splits = *rng.pick(&[0, 1, 2, 3, 5, 8, 13, 15, 99]);
        let seed = match turn % 8 {
            0 => *rng.pick(&[0, 1, 2_147_483_646, 2_147_483_647, 9_999_999_999]),
            _ => 1 + rng.number() % 2_147_483_646,
        };
        alike(&mut both, &prepared(), [n, r, splits], seed);
    }
    for desk in sound_desks() {
        for splits in 0..=255 {
            alike(&mut both, &desk, [2, 1, splits], 87);
            alike(&mut both, &no_desk(&desk), [2, 1, splits], 87);
        }
    }
    both.tally.demand(
        10,
        &["X 0", "X 1", "X 2", "X 3", "X 5", "X 15", "X 16", "X 17"],
    );
}

/// X of these numbers in a line, and by number.
fn alike(both: &mut SideBySide, desk: &Desk, [n, r, splits]: [u8; 3], seed: u64) {
    both.start(desk);
    let line = format!("X\tC\t{n}\t{r}\t{splits}\t{seed}");
    let said = both.line(line.as_bytes());
    let after = *both.desk();
    both.start(desk);
    let done = both.job(exercise(b'C', [n, r, splits], seed));
    assert_eq!((said.number, said.column), (done.number, done.column));
    assert_eq!(after, *both.desk(), "after {line}");
}
